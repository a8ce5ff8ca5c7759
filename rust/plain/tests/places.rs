//! Request A8: refusal 8's place, which is the lowest area that sticks out.

mod common;
#[path = "common/laid.rs"]
mod laid;
#[path = "common/parts.rs"]
mod parts;

use common::{kdmv, put64};
use laid::{closed, furnished, with};
use parts::{put_entries, put_footer};
use plain::{check, frame, header, lookup, read, Part};

const DESCRIPTOR: usize = 28;
const DESCRIPTOR_SECTORS: usize = 36;
const REDUNDANT: usize = 48;
const DIRECTORY: usize = 56;

/// The check's number and place, which the frame gives too where it is of 1 to 8.
fn refused(image: &[u8]) -> (u64, u64) {
    let (verdict, framed) = (check(image), frame(image, &mut [0; 64]));
    if verdict.number == 0 || verdict.number > 8 {
        assert_eq!((framed.number, framed.place), (0, 0));
    } else {
        let found = (framed.number, framed.place);
        assert_eq!(found, (verdict.number, verdict.place));
    }
    (verdict.number, verdict.place)
}

/// The number and place that the lookup of a sector gives.
fn looked_up(image: &[u8], sector: u64) -> (u64, u64) {
    let found = lookup(image, sector);
    (found.number, found.place)
}

/// `furnished` with another u64 of the header.
fn with64(at: usize, value: u64) -> Vec<u8> {
    let mut image = furnished();
    put64(&mut image, at, value);
    image
}

/// `furnished` with those areas outside whose places are among the bits of `faults`, from bit 1 on.
fn faulty(faults: u64) -> Vec<u8> {
    let mut image = furnished();
    for place in (1..=5).filter(|place| faults >> place & 1 == 1) {
        match place {
            1 => put64(&mut image, DESCRIPTOR, 72),
            2 => put64(&mut image, DIRECTORY, 74),
            3 => put64(&mut image, REDUNDANT, 74),
            4 => put_entries(&mut image, 4, &[71]),
            _ => put_entries(&mut image, 5, &[30, 71]),
        }
    }
    image
}

#[test]
fn the_descriptor_is_1() {
    assert_eq!(refused(&with64(DESCRIPTOR, 72)), (8, 1));
    assert_ne!(refused(&with64(DESCRIPTOR, 71)).0, 8);
    assert_eq!(refused(&with64(DESCRIPTOR_SECTORS, 74)), (8, 1));
    assert_ne!(refused(&with64(DESCRIPTOR_SECTORS, 73)).0, 8);
}

#[test]
fn a_descriptor_with_one_number_zero_is_1() {
    assert_eq!(refused(&with64(DESCRIPTOR, 0)), (8, 1));
    assert_eq!(refused(&with64(DESCRIPTOR_SECTORS, 0)), (8, 1));
    let mut none = with64(DESCRIPTOR, 0);
    put64(&mut none, DESCRIPTOR_SECTORS, 0);
    assert_eq!(refused(&none), (0, 0));
}

#[test]
fn the_directory_is_2() {
    assert_eq!(refused(&with64(DIRECTORY, 74)), (8, 2));
    assert_ne!(refused(&with64(DIRECTORY, 73)).0, 8);
    assert_eq!(looked_up(&with64(DIRECTORY, 74), 0), (8, 2));
    assert_eq!(looked_up(&with64(DIRECTORY, 73), 0), (0, 0));
}

#[test]
fn directory_sector_0_is_2() {
    assert_eq!(refused(&with64(DIRECTORY, 0)), (8, 2));
    assert_eq!(looked_up(&with64(DIRECTORY, 0), 0), (8, 2));
    // Redundant directory sector 0 says that there is none.
    assert_eq!(refused(&with64(REDUNDANT, 0)), (0, 0));
}

#[test]
fn the_redundant_directory_is_3() {
    assert_eq!(refused(&with64(REDUNDANT, 74)), (8, 3));
    assert_ne!(refused(&with64(REDUNDANT, 73)).0, 8);
}

#[test]
fn a_primary_table_is_4() {
    for (fits, outside) in [([70, 20], [71, 20]), ([10, 70], [10, 71])] {
        assert_ne!(refused(&with(&[(4, &fits)])).0, 8);
        assert_eq!(refused(&with(&[(4, &outside)])), (8, 4));
    }
    assert_eq!(refused(&with(&[(4, &[u32::MAX])])), (8, 4));
    // The third entry is past n.
    assert_eq!(refused(&with(&[(4, &[10, 20, 71])])), (0, 0));
}

#[test]
fn a_redundant_table_is_5() {
    for (fits, outside) in [([70, 40], [71, 40]), ([30, 70], [30, 71])] {
        assert_ne!(refused(&with(&[(5, &fits)])).0, 8);
        assert_eq!(refused(&with(&[(5, &outside)])), (8, 5));
    }
    assert_eq!(refused(&with(&[(5, &[u32::MAX])])), (8, 5));
    assert_eq!(refused(&with(&[(5, &[30, 40, 71])])), (0, 0));
}

#[test]
fn directories_of_two_sectors() {
    // The second sector of either is what sticks out.
    for (field, place) in [(DIRECTORY, 2), (REDUNDANT, 3)] {
        let mut image = kdmv(128 * 4096 + 1, 8, 40);
        put_entries(&mut image, 1, &[0]);
        put64(&mut image, field, 38);
        assert_ne!(refused(&image).0, 8);
        put64(&mut image, field, 39);
        assert_eq!(refused(&image), (8, place));
    }
}

#[test]
fn sums_that_would_wrap() {
    for near in [u64::MAX - 2, u64::MAX - 1] {
        assert_eq!(refused(&with64(DESCRIPTOR, near)), (8, 1));
        assert_eq!(refused(&with64(DESCRIPTOR_SECTORS, near)), (8, 1));
        assert_eq!(refused(&with64(DIRECTORY, near)), (8, 2));
        assert_eq!(refused(&with64(REDUNDANT, near)), (8, 3));
    }
    assert_eq!(refused(&with64(DESCRIPTOR, u64::MAX)), (8, 1));
    assert_eq!(refused(&with64(REDUNDANT, u64::MAX)), (8, 3));
}

#[test]
fn the_lowest_that_applies() {
    for faults in (2_u64..64).step_by(2) {
        let place = u64::from(faults.trailing_zeros());
        assert_eq!(refused(&faulty(faults)), (8, place), "{faults:b}");
    }
}

#[test]
fn a_lookup_gives_2_and_4_only() {
    for faults in (2_u64..64).step_by(2) {
        let image = faulty(faults);
        let directory = faults >> 2 & 1 == 1;
        let table = faults >> 4 & 1 == 1;
        // The first table is the one outside; the last sector is the second's.
        for (sector, own) in [(0, true), (4095, true), (4096, false), (4120, false)] {
            let expected = match (directory, table && own) {
                (true, _) => (8, 2),
                (_, true) => (8, 4),
                _ => (0, 0),
            };
            assert_eq!(looked_up(&image, sector), expected, "{faults:b} {sector}");
            if expected.0 == 8 {
                assert_eq!(read(&image, sector), Part::default());
            }
        }
        assert_eq!(looked_up(&image, 4121), (20, 0), "{faults:b}");
    }
}

#[test]
fn the_footer_s_directory() {
    for (directory, expected) in [(0, (8, 2)), (70, (8, 2)), (69, (12, 0)), (1, (0, 0))] {
        let mut image = closed();
        put_footer(&mut image, directory);
        assert_eq!(refused(&image), expected, "{directory}");
    }
}

#[test]
fn headers_and_20_come_before() {
    let mut image = faulty(0b11_1110);
    assert_eq!(header(&image).number, 0);
    assert_eq!(looked_up(&image, 4121), (20, 0));
    image[44] = 1;
    assert_eq!((refused(&image), looked_up(&image, 0)), ((6, 0), (6, 0)));
}

#[test]
fn grains_and_copies_come_after() {
    // A grain past F in both copies, entries and tables that differ, areas that meet: each alone, then with a table outside.
    for (mut image, number) in [
        (with(&[(10, &[99]), (30, &[99])]), 9),
        (with(&[(10, &[58, 1])]), 11),
        (with(&[(5, &[30, 41])]), 11),
        (with(&[(10, &[59]), (30, &[59])]), 12),
    ] {
        assert_eq!(refused(&image), (number, 0));
        put_entries(&mut image, 5, &[71]);
        assert_eq!(refused(&image), (8, 5));
    }
}
