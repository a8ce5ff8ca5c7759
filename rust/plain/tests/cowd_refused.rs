//! Request A13: every call but the moves refuses COWD with 43 and place 0, right after 2, and writes nothing.

mod common;
#[path = "common/cowd.rs"]
mod cowd;
#[path = "common/disks.rs"]
mod disks;
#[path = "common/faulty.rs"]
mod faulty;
#[path = "common/parts.rs"]
mod parts;
#[path = "common/single.rs"]
mod single;

use common::{kdmv, put32, set};
use cowd::cowd;
use disks::{ask, refused, stored, text, zeros};
use faulty::{faulty, mixed, stream};
use parts::put_entries;
use plain::{chain, check, collapse, descriptor, header, normal, survey, to_kdmv};
use plain::{Refusal, Surveyed};
use single::{assert_all, assert_none};

/// What survey's lists hold before a call.
const HELD: u64 = 0x0123_4567_89ab_cdef;

/// Three grains, of which the second is stored.
fn old() -> Vec<u8> {
    let mut image = cowd(20, 8, 1, 50);
    put_entries(&mut image, 5, &[0, 40]);
    image
}

/// `old` with the u32 at a place changed.
fn old_but(at: usize, value: u32) -> Vec<u8> {
    let mut image = old();
    put32(&mut image, at, value);
    image
}

/// Bytes of COWD from sound to senseless: the moves' check has each of its numbers for one of them.
fn images() -> Vec<Vec<u8>> {
    let magic = |mut image: Vec<u8>| {
        image[..4].copy_from_slice(b"COWD");
        image
    };
    vec![
        old(),
        old()[..2048].to_vec(),
        // Version, capacity, grain size, stored count, directory, dirty number.
        old_but(4, 2),
        old_but(12, 0),
        old_but(16, 3),
        old_but(24, 0),
        old_but(20, 0),
        old_but(1648, 1),
        // A table and a grain past F, a grain on the header.
        old_but(4 * 512, 19),
        old_but(5 * 512, 43),
        old_but(5 * 512, 1),
        // A byte past the last whole sector, images of KDMV but for the magic, one repeated byte.
        [old(), vec![1]].concat(),
        magic(kdmv(20, 8, 20)),
        magic(stream()),
        magic(vec![0; 2048]),
        magic(vec![0xff; 4096]),
    ]
}

fn number(result: Result<Vec<u8>, Refusal>) -> (u64, u64) {
    let refusal = result.unwrap_err();
    (refusal.number, refusal.place)
}

/// Number, layer and place of a chain's refusal.
fn chained(layers: &[&[u8]], sector: u64) -> (u64, u64, u64) {
    let lengths: Vec<u64> = layers.iter().map(|layer| layer.len() as u64).collect();
    let found = chain(&layers.concat(), &lengths, sector);
    (found.number, found.layer, found.place)
}

#[test]
fn every_call() {
    // The one that the moves take, so that it is not for a fault of its own.
    assert_eq!(to_kdmv(&old(), &mut [0; 16 * 512]).length, 16 * 512);
    for image in images() {
        assert_all(&image, 43);
    }
}

#[test]
fn after_1_and_2() {
    for image in [old(), old_but(4, 2), vec![0xff; 4096]] {
        let mut image = image;
        image[..4].copy_from_slice(b"COWD");
        for length in [0, 1, 3, 4, 511, 512, 1648, 2047] {
            assert_all(&image[..length], 1);
        }
        assert_all(&image[..2048], 43);
    }
    for magic in [b"cowd", b"COWE", b"DWOC", b"COWV", b"\0OWD"] {
        let mut image = old();
        image[..4].copy_from_slice(magic);
        assert_all(&image, 2);
        assert_all(&image[..4], 2);
    }
}

#[test]
fn kdmv_is_never_43() {
    for (number, image) in (1..).zip(faulty()) {
        assert_eq!(check(&image).number, number);
        assert_none(&image, 43);
    }
    // What stands at COWD's places in the first 2,048 bytes is nothing to it.
    let mut image = mixed();
    put32(&mut image, 1648, u32::MAX);
    assert_eq!((check(&image).number, header(&image).dirty), (0, 0));
    assert_none(&image, 43);
}

#[test]
fn layers_of_a_chain() {
    let (sound, old, bad) = (kdmv(20, 8, 6), old(), kdmv(20, 4, 6));
    // Before 22 and 20; from the top down.
    for sector in [0, 19, 20, u64::MAX] {
        assert_eq!(chained(&[&old], sector), (43, 0, 0));
        assert_eq!(chained(&[&sound, &old], sector), (43, 1, 0));
        assert_eq!(chained(&[&old, &sound], sector), (43, 0, 0));
        assert_eq!(chained(&[&old, &kdmv(21, 8, 6)], sector), (43, 0, 0));
        assert_eq!(chained(&[&old, &old, &sound], sector), (43, 1, 0));
        assert_eq!(chained(&[&old, &bad], sector), (6, 1, 0));
        assert_eq!(chained(&[&bad, &old], sector), (43, 1, 0));
        assert_eq!(chained(&[&sound, &old[..2047], &sound], sector), (1, 1, 0));
    }
    // Also where an upper layer has the sector.
    let mut upper = sound.clone();
    set(&mut upper, 0, 1);
    assert_eq!(chained(&[&sound, &upper], 0), (0, 1, 0));
    assert_eq!(chained(&[&old, &upper], 0), (43, 0, 0));
    // After 24: too many layers, and lengths that don't add up.
    assert_eq!(chained(&[&old[..]; 16], 0), (43, 15, 0));
    assert_eq!(chained(&[&old[..]; 17], 0), (24, 0, 0));
    assert_eq!(chain(&old, &[1], 0).number, 24);
}

#[test]
fn collapse_and_normal_form() {
    let (sound, other, bad) = (kdmv(20, 8, 6), kdmv(21, 8, 6), kdmv(20, 4, 6));
    let mut open = sound.clone();
    open[72] = 1;
    for old in images() {
        for room in [0, 1 << 16] {
            assert_eq!(number(normal(&old, room)), (43, 0));
            // In either place: before 23, 22, 27 and 21.
            for image in [&sound, &other, &open, &stream(), &old] {
                assert_eq!(number(collapse(&old, image, room)), (43, 0));
                assert_eq!(number(collapse(image, &old, room)), (43, 0));
            }
            // The lower's check, then the upper's.
            assert_eq!(number(collapse(&old, &bad, room)), (43, 0));
            assert_eq!(number(collapse(&bad, &old, room)), (6, 0));
        }
    }
}

#[test]
fn rows_and_tally_of_a_survey() {
    let (first, packed, images) = (mixed(), stream(), images());
    let mut list: Vec<&[u8]> = images.iter().map(Vec::as_slice).collect();
    let refused = list.len();
    list.extend([&first[..], &packed, &images[0][..2047]]);
    let lengths: Vec<u64> = list.iter().map(|image| image.len() as u64).collect();
    let (mut rows, mut tally) = (vec![HELD; 6 * list.len() + 1], [HELD; 64]);
    let answer = survey(&list.concat(), &lengths, &mut rows, &mut tally);
    let expected = Surveyed {
        stored: 3,
        zero: 2,
        absent: 2,
        packed: 2,
        ..Surveyed::default()
    };
    assert_eq!(answer, expected);
    let (refusals, rest) = rows.split_at(6 * refused);
    assert!(refusals.chunks(6).all(|row| row == [0, 0, 0, 0, 43, 0]));
    let accepted = [3, 1, 1, 0, 0, 0, 0, 1, 1, 2, 0, 0];
    assert_eq!(rest[..12], accepted);
    assert_eq!(rest[12..], [0, 0, 0, 0, 1, 0, HELD]);
    // The tally starts at number 1.
    assert_eq!((tally[0], tally[42]), (1, refused as u64));
    assert_eq!(tally[..63].iter().sum::<u64>(), 1 + refused as u64);
    assert_eq!(tally[63], HELD);
}

#[test]
fn lines_of_a_split_disk() {
    let lines = [
        "RW 3 ZERO",
        "RW 20 VMFSSPARSE \"c\"",
        "noaccess 20 vmfssparse \"c\"",
        "RW 20 SPARSE \"c\"",
        "RW 20 FLAT \"c\" 1",
        "RDONLY 21 VMFSSPARSE \"c\"",
    ];
    // The text is read as before, so that the refusal names the extent.
    let (described, extents) = descriptor(text(&lines).as_bytes(), 6);
    assert_eq!((described.number, described.extents), (0, 6));
    assert_eq!([1, 2, 5].map(|line: usize| extents[line].kind), [4; 3]);
    // Whatever stands under the VMFSSPARSE lines: COWD, KDMV, nothing, any bytes; a COWD file anywhere else is no 43.
    for file in [old(), kdmv(20, 8, 6), vec![], b"COWD".to_vec(), vec![7; 9]] {
        for cowd in images().iter().filter(|image| image.len() >= 21 * 512) {
            let files: [&[u8]; 6] = [b"", &file, &file, cowd, cowd, &file];
            assert_eq!(ask(&lines, &files, 2), zeros(0));
            for (sector, expected) in [(3, (43, 1, 0)), (22, (43, 1, 0)), (23, (39, 2, 0))] {
                assert_eq!(refused(&lines, &files, sector), expected);
            }
            for (sector, expected) in [(43, (45, 3, 0)), (83, (43, 5, 0)), (104, (20, 0, 0))] {
                assert_eq!(refused(&lines, &files, sector), expected);
            }
            assert_eq!(ask(&lines, &files, 63), stored(4, 1));
        }
    }
    // Under SPARSE four bytes are enough for 45; the lengths come before the line.
    assert_eq!(refused(&lines[3..4], &[b"COWD"], 0), (45, 0, 0));
    assert_eq!(refused(&lines[1..2], &[b"", b""], 0), (24, 0, 0));
}
