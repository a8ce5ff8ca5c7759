//! The bytes of the tail.

use super::common::{put32, put64};
use super::starts::{add, add_grain, closed, joined, start};
use plain::{check, header};

/// The tail of a start, whose closing keeps so many sectors and grains and makes an accepted image.
fn tail(image: &[u8], sectors: u64, grains: u64) -> Vec<u8> {
    let whole = joined(image, sectors, grains);
    assert_eq!(check(&whole).number, 0);
    whole[sectors as usize * 512..].to_vec()
}

/// A tail that is zero but for a footer in its last but one sector and these numbers; a place is a sector and a byte in it.
fn laid(image: &[u8], sectors: usize, directory: u64, numbers: &[(usize, usize, u32)]) -> Vec<u8> {
    let mut tail = vec![0; sectors * 512];
    let footer = (sectors - 2) * 512;
    tail[footer..footer + 512].copy_from_slice(&image[..512]);
    put64(&mut tail, footer + 56, directory);
    for (sector, at, value) in numbers {
        put32(&mut tail, sector * 512 + at, *value);
    }
    tail
}

#[test]
fn one_table() {
    let mut image = start(43, 3);
    add_grain(&mut image, 1, 600);
    add_grain(&mut image, 5, 500);
    // From 6 on: marker, table, marker, directory, marker, footer, last sector.
    let numbers = [
        (0, 0, 4),
        (0, 12, 1),
        (1, 4, 3),
        (1, 20, 5),
        (5, 0, 1),
        (5, 12, 2),
        (6, 0, 7),
        (7, 12, 3),
    ];
    assert!(tail(&image, 6, 2) == laid(&image, 10, 12, &numbers));
}

#[test]
fn no_table() {
    let image = start(43, 7);
    let numbers = [(0, 0, 1), (0, 12, 2), (2, 12, 3)];
    assert!(tail(&image, 7, 0) == laid(&image, 5, 8, &numbers));
}

#[test]
fn a_table_for_each_entry_with_grains() {
    // Five directory entries, of which 0 and 3 have grains: each table's first entry and its last.
    let mut image = start(4 * 4096 + 1, 2);
    for grain in [0, 511, 3 * 512, 4 * 512 - 1] {
        add_grain(&mut image, grain, 1);
    }
    let tables = [
        (0, 0, 4),
        (0, 12, 1),
        (1, 0, 2),
        (4, 508, 3),
        (5, 0, 4),
        (5, 12, 1),
        (6, 0, 4),
        (9, 508, 5),
    ];
    let directory = [
        (10, 0, 1),
        (10, 12, 2),
        (11, 0, 7),
        (11, 12, 12),
        (12, 12, 3),
    ];
    let numbers = [&tables[..], &directory].concat();
    assert!(tail(&image, 6, 4) == laid(&image, 15, 17, &numbers));
    // The last entry has one grain.
    add_grain(&mut image, 4 * 512, 1);
    let rest = [
        (10, 0, 4),
        (10, 12, 1),
        (11, 0, 6),
        (15, 0, 1),
        (15, 12, 2),
        (16, 0, 8),
        (16, 12, 13),
        (16, 16, 18),
        (17, 12, 3),
    ];
    let numbers = [&tables[..], &rest].concat();
    assert!(tail(&image, 7, 5) == laid(&image, 20, 23, &numbers));
}

#[test]
fn directories_of_several_sectors() {
    for (capacity, sectors) in [
        (128 * 4096, 1_usize),
        (128 * 4096 + 1, 2),
        (256 * 4096, 2),
        (256 * 4096 + 1, 3),
    ] {
        let image = start(capacity, 2);
        let numbers = [(0, 0, sectors as u32), (0, 12, 2), (1 + sectors, 12, 3)];
        assert!(tail(&image, 2, 0) == laid(&image, sectors + 4, 3, &numbers));
        // A grain of the last entry.
        let mut image = image;
        let last = (capacity - 1) / 8;
        add_grain(&mut image, last, 1);
        let (entry, index) = (last as usize / 512, last as usize % 512);
        let numbers = [
            (0, 0, 4),
            (0, 12, 1),
            (1, index * 4, 2),
            (5, 0, sectors as u32),
            (5, 12, 2),
            (6, entry * 4, 4),
            (6 + sectors, 12, 3),
        ];
        assert!(tail(&image, 3, 1) == laid(&image, 9 + sectors, 9, &numbers));
    }
}

#[test]
fn the_largest_disk() {
    // 524,288 entries take 4,096 sectors; its last grain's table is the one there is.
    let mut image = start(1 << 31, 2);
    let last = (1 << 28) - 1;
    add_grain(&mut image, last, 1);
    let numbers = [
        (0, 0, 4),
        (0, 12, 1),
        (4, 508, 2),
        (5, 0, 4096),
        (5, 12, 2),
        (4101, 508, 4),
        (4102, 12, 3),
    ];
    assert!(tail(&image, 3, 1) == laid(&image, 4105, 9, &numbers));
}

#[test]
fn the_footer_is_sector_0() {
    // Overhead, dirty byte, newline bytes and padding, versions and flags: all of it but the directory's sector.
    for (at, value) in [(72, 1), (72, 255), (79, 7), (511, 9)] {
        let mut image = start(43, 3);
        image[at] = value;
        add_grain(&mut image, 2, 9);
        let whole = closed(&image, 4, &[(2, 3, 9)]);
        let footer = &whole[whole.len() - 1024..][..512];
        assert_eq!((footer[at], whole[at]), (value, value));
        assert_eq!(header(&whole).dirty, u64::from(image[72]));
    }
    for (version, flags) in [(1, 0x30000), (1, 0x30001), (2, 0x30004), (3, 0x30005)] {
        let mut image = start(43, 3);
        put32(&mut image, 4, version);
        put32(&mut image, 8, flags);
        add_grain(&mut image, 2, 9);
        closed(&image, 4, &[(2, 3, 9)]);
        closed(&image[..3 * 512], 3, &[]);
    }
}

#[test]
fn other_grain_sizes() {
    for grain_size in [16, 128, 2048] {
        let mut image = start(grain_size * 513, 2);
        put64(&mut image, 20, grain_size);
        add(&mut image, grain_size * 512, 9, 0, 0);
        let numbers = [
            (0, 0, 4),
            (0, 12, 1),
            (1, 0, 2),
            (5, 0, 1),
            (5, 12, 2),
            (6, 4, 4),
            (7, 12, 3),
        ];
        assert!(tail(&image, 3, 1) == laid(&image, 10, 9, &numbers));
        // A first sector that is a multiple of less than the grain size.
        let mut image = image[..1024].to_vec();
        add(&mut image, grain_size / 2, 9, 0, 0);
        tail(&image, 2, 0);
    }
}

#[test]
fn kept_bytes_are_not_looked_at() {
    // Before overhead, and in tables and payloads, anything may stand; what is dropped leaves no trace.
    let mut image = start(43, 4);
    image[1024..1536].fill(0);
    add(&mut image, 4, 0, 1, 4);
    add_grain(&mut image, 2, 600);
    let mut other = image.clone();
    other.extend([7; 700]);
    assert!(tail(&image, 11, 1) == tail(&other, 11, 1));
    for byte in other[512..2048].iter_mut() {
        *byte ^= 0xff;
    }
    other[5 * 512..9 * 512].fill(0);
    other[9 * 512 + 12..11 * 512].fill(0);
    assert!(tail(&image, 11, 1) == tail(&other, 11, 1));
}
