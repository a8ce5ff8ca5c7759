//! Request A13: the check that the moves keep, on COWD: document 01's numbers 1, 2, 3, 6, 8, 9 and 12, and what is not judged.

mod common;
#[path = "common/cowd.rs"]
mod cowd;
#[path = "common/moved.rs"]
mod moved;
#[path = "common/parts.rs"]
mod parts;

use common::{kdmv, put32, put64, set};
use cowd::cowd;
use moved::{checked, moved, refused, TO_COWD, TO_KDMV};
use parts::{pack, put_entries, put_footer};
use plain::check;

const DIRECTORY: usize = 20;
const COUNT: usize = 24;

/// 72 sectors, with grains of one sector:
///
/// | 4 | header 0    | 32 | table 5  | 1 | grain 0 at 37 | 1 | grain 4096 at 71 |
/// | 1 | directory 4 | 32 | table 39 | 1 | grain 2 at 38 |   |                  |
fn old() -> Vec<u8> {
    let mut image = cowd(4097, 1, 2, 72);
    put_entries(&mut image, 4, &[5, 39]);
    put_entries(&mut image, 5, &[37, 0, 38]);
    put_entries(&mut image, 39, &[71]);
    image
}

/// The moves' number and place of a COWD image with all of its header, of which the public check says 43 alone.
fn judged(image: &[u8]) -> (u64, u64) {
    let public = check(image);
    assert_eq!((public.number, public.place), (43, 0));
    checked(image)
}

/// `old` with the u32 at a place changed.
fn with(at: usize, value: u32) -> (u64, u64) {
    let mut image = old();
    put32(&mut image, at, value);
    judged(&image)
}

/// `old` with other entries at the start of a sector.
fn with_entries(at: usize, entries: &[u32]) -> (u64, u64) {
    let mut image = old();
    put_entries(&mut image, at, entries);
    judged(&image)
}

#[test]
fn number_1_and_2() {
    for length in [0, 3, 4, 512, 2047] {
        assert_eq!(checked(&old()[..length]), (1, 0), "{length}");
        assert_eq!(check(&old()[..length]).number, 1);
    }
    assert_eq!(judged(&old()[..2048]), (8, 2));
    for magic in [b"cowd", b"DWOC", b"COWE"] {
        let mut image = old();
        image[..4].copy_from_slice(magic);
        assert_eq!((checked(&image), check(&image).number), ((2, 0), 2));
    }
}

#[test]
fn number_3() {
    assert_eq!(judged(&old()), (0, 0));
    for version in [0, 2, 3, 257, u32::MAX] {
        assert_eq!(with(4, version), (3, 0), "{version}");
    }
}

#[test]
fn number_6_by_capacity_and_grain_size() {
    for capacity in [0, (1 << 31) + 1, u32::MAX] {
        assert_eq!(judged(&cowd(capacity, 2048, 512, 37)), (6, 0), "{capacity}");
    }
    for grain_size in [0, 3, 12, 2047, 4096, 1 << 31, u32::MAX] {
        assert_eq!(judged(&cowd(1, grain_size, 1, 37)), (6, 0), "{grain_size}");
    }
    for exponent in 0..=11 {
        assert_eq!(judged(&cowd(1, 1 << exponent, 1, 37)), (0, 0));
    }
}

#[test]
fn number_6_by_the_stored_count() {
    // n is 2 at capacity 4,097 and grain size 1: document 01's example.
    for (capacity, grain_size, n) in [
        (1, 1, 1),
        (4096, 1, 1),
        (4097, 1, 2),
        (8192, 1, 2),
        (8193, 1, 3),
        (8192, 2, 1),
        (8193, 2, 2),
        (2048 * 4096, 2048, 1),
        (2048 * 4096 + 1, 2048, 2),
    ] {
        for (count, number) in [(n - 1, 6), (n, 0), (n + 1, 0)] {
            let image = cowd(capacity, grain_size, count, 37);
            assert_eq!(judged(&image), (number, 0), "{capacity} {count}");
        }
    }
}

#[test]
fn the_largest_disks() {
    for (grain_size, n) in [(1, 1 << 19), (2048, 256)] {
        let sectors = 4 + n as usize / 128;
        let mut image = cowd(1 << 31, grain_size, n, sectors);
        put_entries(&mut image, 4, &[0]);
        assert_eq!(judged(&image), (0, 0));
        assert_eq!(judged(&image[..image.len() - 1]), (8, 2));
        put32(&mut image, COUNT, n - 1);
        assert_eq!(judged(&image), (6, 0));
    }
}

#[test]
fn number_8_of_the_directory() {
    for (directory, expected) in [(0, (8, 2)), (72, (8, 2)), (u32::MAX, (8, 2)), (71, (0, 0))] {
        let mut image = old();
        image[71 * 512..].fill(0);
        put32(&mut image, DIRECTORY, directory);
        assert_eq!(judged(&image), expected, "{directory}");
    }
    // The stored count gives its area.
    let mut image = cowd(1, 1, 128 * 34, 38);
    put_entries(&mut image, 4, &[0]);
    assert_eq!(judged(&image), (0, 0));
    for count in [128 * 34 + 1, u32::MAX] {
        put32(&mut image, COUNT, count);
        assert_eq!(judged(&image), (8, 2), "{count}");
    }
}

#[test]
fn number_8_of_tables() {
    assert_eq!(judged(&cowd(4096, 1, 1, 37)), (0, 0));
    assert_eq!(judged(&cowd(4096, 1, 1, 36)), (8, 4));
    for tables in [[41, 39], [5, 41], [41, 41], [5, u32::MAX], [72, 0]] {
        assert_eq!(with_entries(4, &tables), (8, 4), "{tables:?}");
    }
    assert_ne!(with_entries(4, &[5, 40]).0, 8);
    // The third entry is past n.
    assert_eq!(with_entries(4, &[5, 39, 41]), (0, 0));
}

#[test]
fn number_9() {
    for (at, entries, grain) in [
        (5, [72, 0, 38], 0),
        (5, [37, 72, 72], 1),
        (5, [37, 0, u32::MAX], 2),
        (39, [72, 0, 0], 4096),
    ] {
        assert_eq!(with_entries(at, &entries), (9, grain), "{entries:?}");
    }
    // The last grain has a full area though capacity ends in it.
    let mut image = cowd(17, 8, 1, 45);
    put_entries(&mut image, 5, &[0, 0, 37]);
    assert_eq!(judged(&image), (0, 0));
    put_entries(&mut image, 5, &[0, 0, 38]);
    assert_eq!(judged(&image), (9, 2));
}

#[test]
fn number_12_of_the_frame() {
    // The directory on the header, whose sectors are 0 to 3.
    for at in 1..=3 {
        let mut image = old();
        put32(&mut image, DIRECTORY, at);
        put_entries(&mut image, at as usize, &[5, 39]);
        assert_eq!(judged(&image), (12, 0), "{at}");
    }
    // A stored count that makes it end on the first table.
    assert_eq!(with(COUNT, 128), (0, 0));
    assert_eq!(with(COUNT, 129), (12, 0));
    // Tables on the header, on the directory, on one another and one named twice: 1 is a sector like any other.
    for tables in [[1, 39], [3, 39], [4, 39], [5, 1], [5, 4], [5, 5], [5, 36]] {
        assert_eq!(with_entries(4, &tables), (12, 0), "{tables:?}");
    }
}

#[test]
fn number_12_of_grains() {
    // Document 01's example: table entry 1, grain size 1.
    let mut image = cowd(4096, 1, 1, 40);
    put_entries(&mut image, 5, &[1]);
    assert_eq!(judged(&image), (12, 0));
    for (at, entries) in [
        // On the header, the directory and the tables.
        (5, [1, 0, 38]),
        (5, [3, 0, 38]),
        (5, [4, 0, 38]),
        (5, [36, 0, 38]),
        (5, [70, 0, 38]),
        (5, [37, 0, 2]),
        (39, [1, 0, 0]),
        // On one another.
        (5, [37, 0, 37]),
        (5, [37, 38, 38]),
        (39, [37, 0, 0]),
    ] {
        assert_eq!(with_entries(at, &entries), (12, 0), "{at} {entries:?}");
    }
    // Back to back, and with a part in common.
    let mut image = cowd(17, 8, 1, 53);
    for (entries, number) in [([45, 0, 37], 0), ([44, 0, 37], 12), ([37, 0, 44], 12)] {
        put_entries(&mut image, 5, &entries);
        assert_eq!(judged(&image), (number, 0), "{entries:?}");
    }
}

#[test]
fn what_is_not_judged() {
    // Flags, what follows the stored count, KDMV's places of a descriptor and a redundant directory, the dirty number.
    for at in [8, 28, 36, 44, 48, 72, 76, 1644, 1648, 1652, 2044] {
        for value in [1, 4, u32::MAX] {
            assert_eq!(with(at, value), (0, 0), "{at} {value}");
        }
    }
    // Entries past n and past the last grain, and bytes past the last whole sector.
    let mut image = old();
    put_entries(&mut image, 4, &[5, 39, 1, 99]);
    put_entries(&mut image, 39, &[71, 1, 37, u32::MAX]);
    image.extend([0xff; 511]);
    assert_eq!(judged(&image), (0, 0));
}

#[test]
fn each_number_over_the_whole_image() {
    // Every fault at once, mended one by one in the order of their numbers: grains on the header, past F; tables; the rest.
    let mut image = old();
    put_entries(&mut image, 4, &[5, 41]);
    put_entries(&mut image, 5, &[1, 0, 72]);
    for (at, value) in [(4, 2), (16, 3), (DIRECTORY, 0), (1648, 1)] {
        put32(&mut image, at, value);
    }
    for (at, value, before) in [
        (4, 1, (3, 0)),
        (16, 1, (6, 0)),
        (DIRECTORY, 4, (8, 2)),
        (4 * 512 + 4, 39, (8, 4)),
        (5 * 512 + 8, 38, (9, 2)),
        (5 * 512, 37, (12, 0)),
    ] {
        assert_eq!(judged(&image), before);
        put32(&mut image, at, value);
    }
    // What is left is the moves' own: 23 there, and here 27, 44.
    assert_eq!(judged(&image), (0, 0));
    for room in [0, 1 << 16] {
        assert_eq!(refused(TO_COWD, &image, room), (23, 0));
        put32(&mut image, 1648, 1);
        assert_eq!(refused(TO_KDMV, &image, room), (27, 0));
        put32(&mut image, 1648, 0);
        assert_eq!(refused(TO_KDMV, &image, room), (44, 0));
    }
}

#[test]
fn kdmv_has_the_public_numbers() {
    let mut image = kdmv(25, 8, 12);
    assert_eq!((checked(&image), check(&image).number), ((0, 0), 0));
    assert!(moved(TO_COWD, &image).starts_with(b"COWD"));
    pack(&mut image);
    put_footer(&mut image, 1);
    assert_eq!((checked(&image), check(&image).number), ((0, 0), 0));
    put64(&mut image, 10 * 512 + 56, u64::MAX);
    assert_eq!((checked(&image), check(&image).number), ((7, 0), 7));
    let mut image = kdmv(25, 8, 12);
    set(&mut image, 3, 5);
    assert_eq!((checked(&image), check(&image).number), ((9, 3), 9));
}
