//! What closing refuses, and in which order: 1, 2, 43, 3 to 6, 41, 21; never 7.

use super::common::{kdmv, put32, put64, set};
use super::starts::{add, add_grain, closed, refused, start};
use plain::check;

/// Rooms from none to more than enough.
const ROOMS: [usize; 3] = [0, 1, 1 << 16];

/// One grain from sector 9 on, and room for a descriptor before it.
fn sound() -> Vec<u8> {
    let mut image = start(43, 9);
    add_grain(&mut image, 2, 9);
    image
}

/// `sound` with u64 at these places.
fn sound_but(numbers: &[(usize, u64)]) -> Vec<u8> {
    let mut image = sound();
    for (at, value) in numbers {
        put64(&mut image, *at, *value);
    }
    image
}

fn assert_kept(image: &[u8]) {
    closed(image, 10, &[(2, 9, 9)]);
}

fn assert_refused(image: &[u8], number: u64) {
    for room in ROOMS {
        assert_eq!(refused(image, room), number, "{room}");
    }
}

#[test]
fn header_numbers_first() {
    assert_kept(&sound());
    // Each in an image that is 41 too: its overhead is 0.
    for overhead in [9, 0] {
        let image = sound_but(&[(64, overhead)]);
        assert_refused(&image[..3], 1);
        assert_refused(&image[..511], 1);
        for (at, value, number) in [
            (3, b'W', 2),
            (4, 0, 3),
            (4, 4, 3),
            (73, 0, 4),
            (8, 0x0d, 5),
            (8, 0x07, 5),
            (4, 1, 5),
            (77, 0, 5),
            (77, 2, 5),
            (10, 1, 5),
            (12, 0, 6),
            (20, 4, 6),
            (44, 1, 6),
        ] {
            let mut image = image.clone();
            image[at] = value;
            assert_refused(&image, number);
        }
    }
    assert_refused(b"", 1);
}

#[test]
fn a_directory_at_the_end_without_markers() {
    // Without the flag alone it is the header's 5; with a directory in place it is no stream.
    let mut image = sound();
    put32(&mut image, 8, 0x10005);
    assert_refused(&image, 5);
    put64(&mut image, 56, 1);
    assert_refused(&image, 41);
    for directory in [0, 1, 9, u64::MAX - 1] {
        assert_refused(&sound_but(&[(56, directory)]), 41);
    }
}

#[test]
fn no_number_of_the_footer() {
    // The check gives 7 for the same bytes: there is no footer, or the length is no multiple of 512.
    for more in [0, 1, 511] {
        let mut image = sound();
        image.resize(10 * 512 + more, 0xee);
        assert_eq!(check(&image).number, 7);
        assert_kept(&image);
    }
    let image = start(43, 2);
    closed(&image, 2, &[]);
    assert_eq!(check(&image).number, 7);
}

#[test]
fn images_that_are_no_streams() {
    let mut image = kdmv(16, 8, 20);
    assert_refused(&image, 41);
    set(&mut image, 0, 6);
    assert_refused(&image, 41);
    let image = [&b"COWD"[..], &[0; 2044]].concat();
    assert_refused(&image, 43);
    assert_refused(&image[..2047], 1);
}

#[test]
fn a_redundant_directory() {
    for redundant in [1, 2, 10, 1 << 40, u64::MAX] {
        assert_refused(&sound_but(&[(48, redundant)]), 41);
    }
    let mut image = sound_but(&[(48, 2)]);
    put32(&mut image, 8, 0x30007);
    assert_refused(&image, 41);
}

#[test]
fn overhead() {
    for overhead in [0, 1, 11, 12, 1 << 32, u64::MAX] {
        assert_refused(&sound_but(&[(64, overhead)]), 41);
    }
    // Where a walk starts that is not at the grain; 10 is F.
    for overhead in [2, 5, 8, 10] {
        let mut image = sound_but(&[(64, overhead)]);
        image[512..9 * 512].fill(0);
        closed(&image, overhead, &[]);
    }
    assert_kept(&sound_but(&[(64, 9)]));
    // F counts whole sectors.
    let mut image = sound_but(&[(64, 11)]);
    image.resize(11 * 512 - 1, 0);
    assert_refused(&image, 41);
    image.push(0);
    closed(&image, 11, &[]);
    // The shortest starts: a header alone, a byte less than two sectors, and two.
    let image = start(43, 2);
    assert_refused(&image[..512], 41);
    assert_refused(&image[..1023], 41);
    closed(&image, 2, &[]);
}

#[test]
fn descriptors() {
    // In sectors 1 to 8.
    for (first, sectors) in [(1, 8), (8, 1), (3, 2), (1, 1), (0, 0)] {
        assert_kept(&sound_but(&[(28, first), (36, sectors)]));
    }
    for (first, sectors) in [
        (0, 1),
        (1, 0),
        (0, 9),
        (9, 0),
        (20, 0),
        (1, 9),
        (8, 2),
        (9, 1),
        (10, 1),
        (u64::MAX, 1),
        (u64::MAX, 2),
        (1, u64::MAX),
        (2, u64::MAX),
        (u64::MAX - 3, 8),
        (u64::MAX, u64::MAX),
    ] {
        assert_refused(&sound_but(&[(28, first), (36, sectors)]), 41);
    }
    // As far as overhead goes, not as the file does.
    let numbers = [(28, 1), (36, 2), (64, 2)];
    assert_refused(&sound_but(&numbers), 41);
}

#[test]
fn room_comes_last() {
    // Marker and table, marker and directory, marker, footer and last sector.
    let length = (5 + 2 + 3) * 512;
    for room in [0, 1, 511, 512, 5 * 512, length - 512, length - 1] {
        assert_eq!(refused(&sound(), room), 21, "{room}");
    }
    assert_kept(&sound());
    let image = &sound()[..9 * 512];
    for room in [0, 5 * 512 - 1] {
        assert_eq!(refused(image, room), 21, "{room}");
    }
    closed(image, 9, &[]);
}

#[test]
fn a_walk_of_blocks_without_a_grain() {
    // Nothing of it is refused: what is not kept is not judged.
    let mut image = start(43, 2);
    for _ in 0..3 {
        add(&mut image, 4, 0, 1, 4);
        add(&mut image, 1, 0, 2, 1);
    }
    closed(&image, 2, &[]);
    add_grain(&mut image, 0, 1);
    closed(&image, 24, &[(0, 23, 1)]);
}
