//! Mending: what it changes and lists, what it leaves alone, each refusal, and the list's room on both sides of the edge.

use anhkhovet::raw::{self, Mended};
use anhkhovet::{changes, check, lookup, mend, Change, Refusal, Side, Source, CHANGE};
use std::fs;

const BOTH: [Side; 2] = [Side::Primary, Side::Redundant];

/// What words of a list hold before a call.
const HELD: u64 = 170;

/// The first entries of either table, all that are in use: stored, absent, zero, stored, absent.
const ENTRIES: [u32; 5] = [128, 0, 1, 136, 0];

/// Sectors of either directory and its table.
const PRIMARY: (usize, usize) = (1, 2);
const REDUNDANT: (usize, usize) = (6, 7);

fn put(image: &mut [u8], at: usize, bytes: &[u8]) {
    image[at..at + bytes.len()].copy_from_slice(bytes);
}

fn put_entries(image: &mut [u8], sector: usize, entries: &[u32]) {
    for (entry, number) in entries.iter().enumerate() {
        put(image, sector * 512 + 4 * entry, &number.to_le_bytes());
    }
}

/// Five grains of 8 sectors, in version 2 with flag 0x4: two stored ones end the file of 144 sectors.
fn sound() -> Vec<u8> {
    let mut image = vec![0; 144 * 512];
    put(&mut image, 0, b"KDMV\x02\0\0\0\x04");
    for (at, number) in [(12, 33), (20, 8), (44, 512), (48, 6), (56, 1)] {
        put(&mut image, at, &u32::to_le_bytes(number));
    }
    for (directory, table) in [PRIMARY, REDUNDANT] {
        put_entries(&mut image, directory, &[table as u32]);
        put_entries(&mut image, table, &ENTRIES);
    }
    image
}

/// The sound image with other entries at the start of a sector.
fn with(sector: usize, entries: &[u32]) -> Vec<u8> {
    let mut image = sound();
    put_entries(&mut image, sector, entries);
    image
}

/// The image after an answer, and the changes. The list has room for them and two words more, which are kept.
fn mended(image: &[u8], good: Side, count: usize) -> (Vec<u8>, Vec<[u64; 3]>) {
    let mut after = image.to_vec();
    let mut list = vec![HELD; CHANGE * count + 2];
    assert_eq!(mend(&mut after, good, &mut list), Ok(count as u64));
    assert_eq!(list[CHANGE * count..], [HELD; 2]);
    assert!(check(&after).is_ok());
    let told = changes(&list, count as u64).map(|change| [change.grain, change.old, change.new]);
    (after, told.collect())
}

/// That it is refused so, with no place, and that no byte and no word is written.
fn assert_refused(image: &[u8], good: Side, room: usize, number: u64) {
    assert_refused_at(image, good, room, Refusal { number, place: 0 });
}

fn assert_refused_at(image: &[u8], good: Side, room: usize, refused: Refusal) {
    let mut after = image.to_vec();
    let mut list = vec![HELD; room];
    assert_eq!(mend(&mut after, good, &mut list), Err(refused), "{room}");
    assert!(after == image && list == vec![HELD; room], "{refused}");
}

#[test]
fn an_entry_that_differs_behind_a_zero_byte() {
    let sound = sound();
    for (_, table) in [PRIMARY, REDUNDANT] {
        assert_eq!(sound[table * 512..table * 512 + 4], [0x80, 0, 0, 0]);
    }
    for other in [[0x80, 0, 1, 0], [0x80, 0, 0, 1], [0x80, 0, 0, 0x80]] {
        let entry = u32::from_le_bytes(other);
        let told = vec![[0, entry.into(), 128]];
        for (table, good, bad, number) in [
            (REDUNDANT.1, Side::Primary, Side::Redundant, 11),
            (PRIMARY.1, Side::Redundant, Side::Primary, 9),
        ] {
            let image = with(table, &[entry]);
            assert_eq!(check(&image).unwrap_err().number, number);
            assert_eq!(mended(&image, good, 1), (sound.clone(), told.clone()));
            assert_refused(&image, bad, 3, 40);
        }
    }
    // A file that has both sectors: either side may be the good one.
    let mut image = with(REDUNDANT.1, &[0x10080]);
    image.resize((0x10080 + 8) * 512, 0);
    for (good, old, new) in [
        (Side::Primary, 0x10080, 128),
        (Side::Redundant, 128, 0x10080),
    ] {
        let (after, told) = mended(&image, good, 1);
        assert_eq!(told, [[0, old, new]]);
        assert_eq!(lookup(&after, 0), Ok(Source::Stored { sector: new }));
    }
}

#[test]
fn either_side() {
    // Grains 0, 2 and 4 differ; those between do not.
    let image = with(REDUNDANT.1, &[0, 0, 0, 136, 1]);
    let told = [[0, 0, 128], [2, 0, 1], [4, 1, 0]];
    assert_eq!(mended(&image, Side::Primary, 3), (sound(), told.to_vec()));
    let (after, told) = mended(&image, Side::Redundant, 3);
    assert_eq!(told, [[0, 128, 0], [2, 1, 0], [4, 0, 1]]);
    let mut wanted = image.clone();
    put_entries(&mut wanted, PRIMARY.1, &[0, 0, 0, 136, 1]);
    assert!(after == wanted);
    // Any number but 0 names the redundant side.
    for good in [1, 2, 256, 1 << 32, u64::MAX] {
        let (mut after, mut list) = (image.clone(), [HELD; 9]);
        let expected = Mended {
            count: 3,
            ..Mended::default()
        };
        assert_eq!(raw::mend(&mut after, good, &mut list), expected);
        assert!(after == wanted, "{good}");
    }
}

#[test]
fn what_is_left_alone() {
    // Entries past the last grain, of either table; grains' bytes; a dirty number; bytes past the last whole sector.
    let mut image = with(REDUNDANT.1, &[128, 0, 1, 136, 1, 99, 1]);
    put_entries(&mut image, PRIMARY.1 + 3, &[98; 128]);
    image[128 * 512..].fill(7);
    image[72] = 1;
    image.extend([5; 511]);
    let (after, told) = mended(&image, Side::Primary, 1);
    assert_eq!(told, [[4, 1, 0]]);
    put_entries(&mut image, REDUNDANT.1, &ENTRIES);
    assert!(after == image);
    // Nothing to mend needs no room.
    for good in BOTH {
        assert_eq!(mend(&mut image, good, &mut []), Ok(0));
        assert!(after == image);
    }
}

#[test]
fn room() {
    let image = with(REDUNDANT.1, &[0, 1, 0, 0, 1]);
    for good in BOTH {
        for short in 0..5 * CHANGE {
            assert_refused(&image, good, short, 21);
        }
        assert_eq!(mended(&image, good, 5).1.len(), 5);
    }
}

#[test]
fn refused_for_the_header() {
    let sound = sound();
    let mut images = vec![(1, Vec::new()), (1, sound[..511].to_vec())];
    for (at, value, number) in [(0, 0, 2), (4, 9, 3), (8, 5, 4), (8, 12, 5), (20, 9, 6)] {
        let mut image = sound.clone();
        image[at] = value;
        images.push((number, image));
    }
    // A directory at the end of a stream whose footer is none.
    let mut stream = sound.clone();
    put(&mut stream, 8, &0x30004u32.to_le_bytes());
    put(&mut stream, 56, &[0xff; 8]);
    stream[77] = 1;
    images.push((7, stream));
    for (number, image) in images {
        for good in BOTH {
            assert_refused(&image, good, 0, number);
            assert_refused(&image, good, 15, number);
        }
    }
}

#[test]
fn refused_for_a_part_outside() {
    let both = {
        let mut image = with(PRIMARY.0, &[141]);
        put_entries(&mut image, REDUNDANT.0, &[141]);
        image
    };
    for (image, place) in [
        (with(PRIMARY.0, &[141]), 4),
        (with(REDUNDANT.0, &[141]), 5),
        (both, 4),
    ] {
        for good in BOTH {
            for room in [0, 15] {
                assert_refused_at(&image, good, room, Refusal { number: 8, place });
            }
        }
    }
}

#[test]
fn refused_40() {
    let mut one = sound();
    one[48] = 0;
    // Zeros in one directory and a table in the other; a table on the other directory; a grain on another one.
    let places = with(REDUNDANT.0, &[1]);
    let meet = with(REDUNDANT.0, &[3]);
    let mut grains = with(PRIMARY.1, &[136]);
    put_entries(&mut grains, REDUNDANT.1, &[136]);
    for image in [one, places, meet, grains] {
        for good in BOTH {
            for room in [0, 2, 3, 15] {
                assert_refused(&image, good, room, 40);
            }
        }
    }
    let refused = Refusal {
        number: 40,
        place: 0,
    };
    assert_eq!(
        refused.to_string(),
        "refused 40: the image cannot be mended from that side: it has one directory only, its two directories name tables \
         in different places, header, footer, directories or tables share a sector, or it would still be refused"
    );
}

/// Streams have one directory, and the COWD image is not taken.
#[test]
fn samples() {
    let mut with_two = 0;
    for entry in fs::read_dir("../../samples").unwrap() {
        let path = entry.unwrap().path();
        if path.extension().map_or(true, |name| name != "vmdk") {
            continue;
        }
        let sound = fs::read(&path).unwrap();
        let mut list = [HELD; 3];
        let mut image = sound.clone();
        let refused = match mend(&mut image, Side::Primary, &mut list) {
            Ok(count) => {
                assert_eq!(count, 0);
                with_two += 1;
                let table = 22 * 512;
                assert_eq!(image[21 * 512], 22, "{}", path.display());
                image[table + 3] = 0x80;
                assert_eq!(mend(&mut image, Side::Primary, &mut list), Ok(1));
                let change = changes(&list, 1).next();
                assert!(matches!(change, Some(Change { grain: 0, .. })));
                None
            }
            Err(refusal) => Some(refusal.number),
        };
        assert!(image == sound, "{}", path.display());
        assert!(matches!(refused, None | Some(2 | 40 | 43)), "{refused:?}");
    }
    assert!(with_two > 5, "{with_two}");
}
