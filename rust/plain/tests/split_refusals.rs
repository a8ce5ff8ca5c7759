//! Request A4: what a split disk is refused for, in which order, and which extent and place are named.

mod common;
#[path = "common/cowd.rs"]
mod cowd;
#[path = "common/disks.rs"]
mod disks;
#[path = "common/parts.rs"]
mod parts;

use common::{kdmv, put32, put64, set};
use cowd::cowd;
use disks::{ask, refusal, refused, stored, text, zeros};
use parts::{pack, put_entries, put_footer};
use plain::{check, split};

const FLAT: &str = "RW 2 FLAT \"a\" 0";
const SPARSE: &str = "RW 20 SPARSE \"a\"";
const VMFSSPARSE: &str = "RW 20 VMFSSPARSE \"a\"";

/// The number, extent and place for a text, files of these bytes, and lengths that may not fit.
fn with(text: &str, files: &[u8], lengths: &[u64], sector: u64) -> (u64, u64, u64) {
    refusal(split(text.as_bytes(), files, lengths, sector))
}

/// One extent line of 20 sectors after one of five, which is always in order.
fn own(line: &str, file: &[u8]) -> (u64, u64, u64) {
    refused(&["RW 5 ZERO", line], &[b"", file], 5)
}

#[test]
fn the_descriptor_first() {
    let sound = text(&[FLAT, "RW 1 ZERO"]);
    let long = sound.clone() + &"\0".repeat(65_537 - sound.len());
    for (text, expected) in [
        (long, (36, 0, 0)),
        (sound.clone() + "\0x", (31, 0, 0)),
        (sound.replacen("Disk", "disc", 1), (30, 0, 0)),
        (String::new(), (30, 0, 0)),
        (sound.clone() + "\nno form", (32, 0, 8)),
        (sound.clone() + "\n\nCID=2", (33, 0, 9)),
        (sound.replacen("version=1", "version=4", 1), (33, 0, 2)),
        (sound.replacen("version=1", "", 1), (33, 0, 0)),
        (sound.replacen("RW 1 ZERO", "RW 0 ZERO", 1), (34, 0, 7)),
        (sound.replacen(" 0\n", "\n", 1), (34, 0, 6)),
        (text(&[]), (35, 0, 0)),
        (sound.clone() + "\nRW 2147483646 ZERO", (35, 0, 0)),
    ] {
        // With lengths and a sector that fit, and with neither.
        assert_eq!(with(&text, &[0; 1024], &[1024, 0], 0), expected, "{text}");
        assert_eq!(with(&text, b"x", &[], u64::MAX), expected, "{text}");
    }
    let answer = split(sound.as_bytes(), &[0; 1024], &[1024, 0], 1);
    assert_eq!(answer, stored(0, 1));
}

#[test]
fn lengths() {
    let sound = text(&["RW 3 ZERO", FLAT, FLAT]);
    let files = [0; 2048];
    for (lengths, sector, answer) in [
        ([0, 1024, 1024], 0, zeros(0)),
        ([0, 1024, 1024], 4, stored(1, 1)),
        ([0, 2048, 0], 4, stored(1, 1)),
        ([0, 0, 2048], 5, stored(2, 0)),
    ] {
        assert_eq!(split(sound.as_bytes(), &files, &lengths, sector), answer);
    }
    let wraps = u64::MAX - 1023;
    for lengths in [
        &[][..],
        &[2048],
        // One too few, one too many.
        &[1024, 1024],
        &[0, 1024, 1024, 0],
        &[1024, 0, 1024, 0],
        &[0, 1024, 1023],
        &[0, 1024, 1025],
        &[0, 0, 0],
        // These wrap to the slice's length.
        &[0, wraps, 3072],
        &[1 << 63, 1 << 63, 2048],
        &[u64::MAX, 1025, 1024],
        &[u64::MAX; 3],
    ] {
        for sector in [0, 4, 6, 7, u64::MAX] {
            assert_eq!(with(&sound, &files, lengths, sector), (24, 0, 0));
        }
    }
    // No extent, and no length for it, is the text's fault.
    assert_eq!(with(&text(&[]), b"", &[], 0), (35, 0, 0));
    // 24 comes before all that concerns one extent.
    let bad = text(&["NOACCESS 3 ZERO"]);
    assert_eq!(with(&bad, b"x", &[], 0), (24, 0, 0));
    assert_eq!(with(&bad, b"x", &[0], 0), (24, 0, 0));
    assert_eq!(with(&bad, b"x", &[1], 3), (20, 0, 0));
    assert_eq!(with(&bad, b"x", &[1], 2), (39, 0, 0));
}

#[test]
fn first_bytes() {
    let long = |magic: &[u8]| [magic, &[0; 4096]].concat();
    for (file, number) in [
        (vec![], 1),
        (b"COW".to_vec(), 1),
        (b"KDM".to_vec(), 1),
        (b"KDMV".to_vec(), 1),
        (b"COWD".to_vec(), 45),
        (long(b"COWD"), 45),
        (b"KDMW".to_vec(), 2),
        (b"COWE".to_vec(), 2),
        (b"cowd".to_vec(), 2),
        (long(b"DWOC"), 2),
        (vec![0; 4], 2),
        (long(b"KDMV"), 3),
    ] {
        assert_eq!(own(SPARSE, &file), (number, 1, 0), "{file:?}");
        // A VMFSSPARSE line is refused whatever its file holds.
        assert_eq!(own(VMFSSPARSE, &file), (43, 1, 0), "{file:?}");
    }
}

#[test]
fn sound_images_of_either_kind() {
    let (one, other) = (kdmv(20, 8, 6), cowd(20, 1, 1, 37));
    assert_eq!(own(SPARSE, &one), (0, 1, 0));
    assert_eq!(own(SPARSE, &other), (45, 1, 0));
    assert_eq!(own(VMFSSPARSE, &one), (43, 1, 0));
    assert_eq!(own(VMFSSPARSE, &other), (43, 1, 0));
}

#[test]
fn capacity_and_line() {
    for (sectors, number) in [(19, 38), (20, 0), (21, 38), (1, 38), (2147483643, 38)] {
        let line = format!("RW {sectors} SPARSE \"a\"");
        assert_eq!(own(&line, &kdmv(20, 8, 6)), (number, 1, 0), "{line}");
        let line = format!("RW {sectors} VMFSSPARSE \"a\"");
        assert_eq!(own(&line, &cowd(20, 1, 1, 37)), (43, 1, 0), "{line}");
    }
}

/// A KDMV image of three grains, refused 8 with this place.
fn outside(place: u64) -> Vec<u8> {
    let mut image = kdmv(20, 8, 30);
    match place {
        1 => put64(&mut image, 28, 1),
        2 => put64(&mut image, 56, 30),
        3 => put64(&mut image, 48, 30),
        4 => put_entries(&mut image, 1, &[27]),
        _ => {
            put64(&mut image, 48, 7);
            put_entries(&mut image, 7, &[27]);
        }
    }
    image
}

#[test]
fn the_area_that_sticks_out() {
    for place in 1..=5 {
        let image = outside(place);
        assert_eq!(own(SPARSE, &image), (8, 1, place));
        // 38 comes after.
        assert_eq!(own("RW 21 SPARSE \"a\"", &image), (8, 1, place));
    }
}

/// A KDMV image of three grains for each of the check's numbers, with the place.
fn refused_images() -> Vec<(Vec<u8>, u64, u64)> {
    let sound = kdmv(20, 8, 30);
    let of = |change: &dyn Fn(&mut Vec<u8>)| {
        let mut image = sound.clone();
        change(&mut image);
        image
    };
    let packed = |first: u64, size: u32| {
        let mut image = sound.clone();
        pack(&mut image);
        set(&mut image, 1, 6);
        put64(&mut image, 6 * 512, first);
        put32(&mut image, 6 * 512 + 8, size);
        image
    };
    vec![
        (of(&|image| image.truncate(511)), 1, 0),
        (of(&|image| image[0] = 0), 2, 0),
        (of(&|image| image[4] = 4), 3, 0),
        (of(&|image| image[73] = 0), 4, 0),
        (of(&|image| image[8] = 13), 5, 0),
        (of(&|image| put64(image, 20, 12)), 6, 0),
        (
            of(&|image| {
                pack(image);
                put_footer(image, u64::MAX);
            }),
            7,
            0,
        ),
        (of(&|image| put64(image, 56, 30)), 8, 2),
        (of(&|image| set(image, 2, 23)), 9, 2),
        (of(&|image| put_entries(image, 2, &[6, 23, 40])), 9, 1),
        (packed(7, 100), 10, 1),
        (packed(8, 0), 10, 1),
        (of(&|image| put64(image, 48, 7)), 11, 0),
        (of(&|image| put_entries(image, 2, &[6, 0, 6])), 12, 0),
    ]
}

#[test]
fn the_image_s_own_numbers() {
    for (image, number, place) in refused_images() {
        assert_eq!((check(&image).number, check(&image).place), (number, place));
        // Every sector of the extent is refused for the whole of its file; 38 comes after all of them, 45, 43 and 39 before.
        for (line, expected) in [
            (SPARSE, (number, 1, place)),
            ("RW 21 SPARSE \"a\"", (number, 1, place)),
            ("NOACCESS 20 SPARSE \"a\"", (39, 1, 0)),
            (VMFSSPARSE, (43, 1, 0)),
        ] {
            assert_eq!(own(line, &image), expected, "{line} {number}");
        }
        let flat = ask(&["RW 1 FLAT \"a\" 0"], &[&image], 0).number;
        assert_eq!(flat, if image.len() < 512 { 45 } else { 0 });
    }
}

#[test]
fn no_access_before_the_file() {
    // What the file is then, under RW.
    for (line, file, number) in [
        ("NOACCESS 20 SPARSE \"a\"", cowd(20, 1, 1, 37), 45),
        ("noaccess 20 VMFSSPARSE \"a\"", kdmv(20, 8, 6), 43),
        ("NOACCESS 20 VMFSSPARSE \"a\"", cowd(20, 1, 1, 37), 43),
        ("NOACCESS 20 VMFSSPARSE \"a\"", vec![], 43),
        ("NOACCESS 20 SPARSE \"a\"", kdmv(20, 8, 6), 0),
        ("NOACCESS 21 SPARSE \"a\"", kdmv(20, 8, 6), 38),
        ("NOACCESS 20 FLAT \"a\" 0", vec![], 45),
        ("NOACCESS 20 FLAT \"a\" 0", vec![0; 10240], 0),
        ("NOACCESS 20 VMFS \"a\"", vec![0; 10239], 45),
        ("NOACCESS 20 ZERO", vec![], 0),
        ("NOACCESS 20 ZERO", vec![0], 45),
    ] {
        assert_eq!(own(line, &file), (39, 1, 0), "{line}");
        let open = line.to_uppercase().replace("NOACCESS", "RW");
        assert_eq!(ask(&[&open], &[&file], 0).number, number, "{open}");
    }
}
