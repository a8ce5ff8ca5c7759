//! The frame: which areas there are in images laid out by hand, their order, and the refusals.

mod common;
#[path = "common/parts.rs"]
mod parts;

use common::{kdmv, put64, set};
use parts::{pack, put_entries, put_footer};
use plain::{check, frame};

/// What the list holds before a call; no area has such a word.
const HELD: u64 = 0x0123_4567_89ab_cdef;

/// The areas, asked for with room to spare, whose words keep what they held.
fn areas(image: &[u8]) -> Vec<[u64; 3]> {
    let mut list = vec![HELD; 64];
    let framed = frame(image, &mut list);
    assert_eq!((framed.number, framed.place), (0, 0));
    let (written, rest) = list.split_at(3 * framed.count as usize);
    assert!(rest.iter().all(|word| *word == HELD));
    let areas = written.chunks(3);
    areas.map(|area| [area[0], area[1], area[2]]).collect()
}

/// The number of a refusal, which has the check's number and place, no count and no word written, whatever the room.
fn refused(image: &[u8]) -> u64 {
    let verdict = check(image);
    for room in [0, 1, 64] {
        let mut list = vec![HELD; room];
        let framed = frame(image, &mut list);
        assert_eq!(framed.number, verdict.number, "room {room}");
        assert_eq!((framed.place, framed.count), (verdict.place, 0));
        assert!(list.iter().all(|word| *word == HELD), "room {room}");
    }
    verdict.number
}

/// Twenty sectors: directory 1, table 2, descriptor 6 and 7, redundant directory 8, its table 9; from 13 on nothing.
fn furnished() -> Vec<u8> {
    let mut image = kdmv(16, 8, 20);
    put64(&mut image, 28, 6);
    put64(&mut image, 36, 2);
    put64(&mut image, 48, 8);
    put_entries(&mut image, 8, &[9]);
    image
}

#[test]
fn a_small_image() {
    assert_eq!(areas(&kdmv(200, 128, 6)), [[1, 0, 1], [3, 1, 1], [5, 2, 4]]);
}

#[test]
fn a_descriptor() {
    let mut image = kdmv(200, 128, 9);
    put64(&mut image, 28, 6);
    put64(&mut image, 36, 3);
    let expected = [[1, 0, 1], [2, 6, 3], [3, 1, 1], [5, 2, 4]];
    assert_eq!(areas(&image), expected);
}

#[test]
fn groups_and_entries_in_order() {
    // Four directory entries; places fall where the groups and entries rise.
    let mut image = kdmv(4 * 4096, 8, 40);
    pack(&mut image);
    put64(&mut image, 28, 30);
    put64(&mut image, 36, 2);
    put64(&mut image, 48, 3);
    put_footer(&mut image, 20);
    put_entries(&mut image, 20, &[12, 0, 8, 1, 99]);
    put_entries(&mut image, 3, &[32, 0, 4, 1, 99]);
    assert_eq!(check(&image).number, 0);
    let mut expected = vec![[1, 0, 1], [2, 30, 2], [3, 20, 1], [4, 3, 1]];
    expected.extend([[5, 12, 4], [5, 8, 4], [6, 32, 4], [6, 4, 4]]);
    expected.extend([[7, 38, 1], [8, 39, 1]]);
    assert_eq!(areas(&image), expected);
}

#[test]
fn each_directory_by_its_own_entries() {
    let mut image = kdmv(4 * 4096, 8, 40);
    put64(&mut image, 48, 10);
    put_entries(&mut image, 1, &[2, 0, 1, 6]);
    put_entries(&mut image, 10, &[0, 15, 11, 1]);
    // The copies differ, which the frame does not judge.
    assert_eq!(check(&image).number, 11);
    let mut expected = vec![[1, 0, 1], [3, 1, 1], [4, 10, 1], [5, 2, 4], [5, 6, 4]];
    expected.extend([[6, 15, 4], [6, 11, 4]]);
    assert_eq!(areas(&image), expected);

    put_entries(&mut image, 1, &[0, 1, 0, 1]);
    let expected = [[1, 0, 1], [3, 1, 1], [4, 10, 1], [6, 15, 4], [6, 11, 4]];
    assert_eq!(areas(&image), expected);
}

#[test]
fn a_directory_of_two_sectors() {
    // n is 128, which fills a sector; with one sector of the disk more it is 129.
    let mut image = kdmv(128 * 4096, 8, 11);
    put_entries(&mut image, 1, &[3]);
    put_entries(&mut image, 2, &[7, 99]);
    assert_eq!(areas(&image), [[1, 0, 1], [3, 1, 1], [5, 3, 4]]);
    put64(&mut image, 12, 128 * 4096 + 1);
    let expected = [[1, 0, 1], [3, 1, 2], [5, 3, 4], [5, 7, 4]];
    assert_eq!(areas(&image), expected);
    put64(&mut image, 56, 9);
    assert_eq!(areas(&image), [[1, 0, 1], [3, 9, 2]]);
    put64(&mut image, 56, 10);
    assert_eq!(refused(&image), 8);
}

#[test]
fn a_footer_where_used() {
    let mut image = kdmv(16, 8, 12);
    pack(&mut image);
    let frame = vec![[1, 0, 1], [3, 1, 1], [5, 2, 4]];
    assert_eq!(areas(&image), frame);
    put_footer(&mut image, 1);
    let footer = vec![[7, 10, 1], [8, 11, 1]];
    assert_eq!(areas(&image), [frame, footer].concat());

    put64(&mut image, 10 * 512 + 56, 0);
    assert_eq!(refused(&image), 8);
    put64(&mut image, 10 * 512 + 56, u64::MAX);
    assert_eq!(refused(&image), 7);
    put64(&mut image, 10 * 512 + 56, 1);
    image[11 * 512] = 1;
    assert_eq!(refused(&image), 7);
}

#[test]
fn grains_copies_and_meeting_areas_are_not_judged() {
    let mut image = furnished();
    let expected = areas(&image);
    assert_eq!(check(&image).number, 0);
    set(&mut image, 0, u32::MAX);
    assert_eq!(check(&image).number, 9);
    assert_eq!(areas(&image), expected);
    set(&mut image, 0, 13);
    pack(&mut image);
    assert_eq!(check(&image).number, 10);
    assert_eq!(areas(&image), expected);

    // One place for the descriptor, both directories and every table.
    let mut image = kdmv(2 * 4096, 8, 12);
    put64(&mut image, 28, 2);
    put64(&mut image, 36, 1);
    put64(&mut image, 48, 2);
    put64(&mut image, 56, 2);
    put_entries(&mut image, 2, &[2, 2]);
    assert_eq!(check(&image).number, 12);
    let mut expected = vec![[1, 0, 1], [2, 2, 1], [3, 2, 1], [4, 2, 1]];
    expected.extend([[5, 2, 4], [5, 2, 4], [6, 2, 4], [6, 2, 4]]);
    assert_eq!(areas(&image), expected);
}

#[test]
fn refusals_of_the_header() {
    assert_eq!(refused(b""), 1);
    assert_eq!(refused(b"KDM"), 1);
    assert_eq!(refused(&furnished()[..511]), 1);
    for (at, value, number) in [
        (3, b'W', 2),
        (4, 0, 3),
        (4, 4, 3),
        (73, 0x20, 4),
        (8, 9, 5),
        (77, 1, 5),
        (20, 12, 6),
        (44, 1, 6),
    ] {
        let mut image = furnished();
        image[at] = value;
        assert_eq!(refused(&image), number, "{at} {value}");
    }
    let mut image = furnished();
    put64(&mut image, 56, u64::MAX);
    assert_eq!(refused(&image), 5);
    pack(&mut image);
    assert_eq!(refused(&image), 7);
}

#[test]
fn refusal_8_and_its_edges() {
    // The header's field or the directory's entry, the last value that fits, and those that do not.
    let cases: [(usize, u64, &[u64]); 4] = [
        (28, 18, &[0, 19, u64::MAX]),
        (36, 14, &[0, 15, u64::MAX, u64::MAX - 5]),
        (48, 19, &[20, u64::MAX, u64::MAX - 1]),
        (56, 19, &[0, 20, u64::MAX - 1]),
    ];
    for (at, fits, faults) in cases {
        let mut image = furnished();
        // Bytes past the last whole sector make no room.
        image.extend([0; 511]);
        put64(&mut image, at, fits);
        assert!(areas(&image).iter().flatten().any(|word| *word == fits));
        for fault in faults {
            put64(&mut image, at, *fault);
            assert_eq!(refused(&image), 8, "{at} {fault}");
        }
    }
    for (directory, group) in [(1, 5), (8, 6)] {
        let mut image = furnished();
        put_entries(&mut image, directory, &[16]);
        assert!(areas(&image).contains(&[group, 16, 4]));
        for fault in [17, 20, u32::MAX] {
            put_entries(&mut image, directory, &[fault]);
            assert_eq!(refused(&image), 8, "{directory} {fault}");
        }
    }
}

#[test]
fn room_for_the_list() {
    let image = furnished();
    let expected = [
        1, 0, 1, 2, 6, 2, 3, 1, 1, 4, 8, 1, 5, 2, 4, 6, 9, 4, HELD, HELD,
    ];
    for room in 0..=20 {
        let mut list = vec![HELD; room];
        let framed = frame(&image, &mut list);
        let answer = (framed.number, framed.place, framed.count);
        if room < 18 {
            assert_eq!(answer, (21, 0, 0), "{room}");
            assert!(list.iter().all(|word| *word == HELD), "{room}");
        } else {
            assert_eq!(answer, (0, 0, 6), "{room}");
            assert_eq!(list, expected[..room], "{room}");
        }
    }
}
