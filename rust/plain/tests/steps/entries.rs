//! Every kind of answer and both meanings of 1, with the offsets worked out by hand.

use super::common::{kdmv, put32, put64, set};
use super::laid::{closed, furnished, with};
use super::parts::{put_entries, put_footer};
use super::versions::{of, SECTOR, ZEROS};
use super::ways::{asked, nothing, one_is_sector, packed, refused, stored, way, zero, NONE};

/// Five grains: a directory of one entry at sector 9, and its table's start.
fn small(table: u32, entries: &[u32]) -> Vec<u8> {
    let mut image = kdmv(33, 8, 30);
    put64(&mut image, 56, 9);
    put_entries(&mut image, 9, &[table]);
    put_entries(&mut image, table as usize, entries);
    image
}

#[test]
fn the_sample_of_000() {
    let mut image = kdmv(8192, 128, 27 + 4 + 400);
    put_entries(&mut image, 1, &[27]);
    put_entries(&mut image, 27, &[128, 0, 256]);
    // The table starts at byte 27 x 512 = 13,824.
    let to = |grain, table| way(grain, [512, 27], table);
    assert_eq!(asked(&image, 2), stored(130, to(0, [13_824, 128])));
    assert_eq!(asked(&image, 127), stored(255, to(0, [13_824, 128])));
    assert_eq!(asked(&image, 128), to(1, [13_828, 0]));
    assert_eq!(asked(&image, 256), stored(256, to(2, [13_832, 256])));
    assert_eq!(asked(&image, 8191), to(63, [14_076, 0]));
    assert_eq!(asked(&image, 8192), nothing(20));
}

#[test]
fn the_second_table() {
    // The directory is at byte 4 x 512 = 2,048; its tables are at 10 x 512 = 5,120 and 20 x 512 = 10,240.
    let image = furnished();
    let first = |grain, table| way(grain, [2048, 10], table);
    let second = |grain, table| way(grain, [2052, 20], table);
    assert_eq!(asked(&image, 0), stored(58, first(0, [5120, 58])));
    assert_eq!(asked(&image, 7), stored(65, first(0, [5120, 58])));
    assert_eq!(asked(&image, 8), first(1, [5124, 0]));
    assert_eq!(asked(&image, 17), stored(67, first(2, [5128, 66])));
    // The first table's last entry is at 5,120 + 511 x 4; the second starts with grain 512, at sector 512 x 8.
    assert_eq!(asked(&image, 4095), first(511, [7164, 0]));
    assert_eq!(asked(&image, 4096), second(512, [10_240, 0]));
    assert_eq!(asked(&image, 4119), second(514, [10_248, 0]));
    assert_eq!(asked(&image, 4120), stored(50, second(515, [10_252, 50])));
}

#[test]
fn directory_entry_0() {
    let image = with(&[(4, &[0, 20])]);
    assert_eq!(asked(&image, 0), way(0, [2048, 0], NONE));
    assert_eq!(asked(&image, 4095), way(511, [2048, 0], NONE));
    let second = way(512, [2052, 20], [10_240, 0]);
    assert_eq!(asked(&image, 4096), second);
    // Whatever 1 means, 0 is absent.
    let image = of(&image, [1, 1]);
    let first = way(0, [2048, 0], NONE);
    assert_eq!(asked(&image, 0), one_is_sector(first));
    assert_eq!(asked(&image, 4096), one_is_sector(second));
}

#[test]
fn directory_entry_1() {
    // The directory is at byte 9 x 512 = 4,608; a table at sector 1 is at byte 512.
    let image = small(1, &[14, 0, 22]);
    for kind in ZEROS {
        for (sector, grain) in [(0, 0), (9, 1), (32, 4)] {
            let expected = zero(way(grain, [4608, 1], NONE));
            assert_eq!(asked(&of(&image, kind), sector), expected, "{kind:?}");
        }
    }
    for kind in SECTOR {
        let image = of(&image, kind);
        let to = |grain, table| one_is_sector(way(grain, [4608, 1], table));
        assert_eq!(asked(&image, 3), stored(17, to(0, [512, 14])));
        assert_eq!(asked(&image, 9), to(1, [516, 0]));
        assert_eq!(asked(&image, 16), stored(22, to(2, [520, 22])));
    }
}

#[test]
fn table_entry_1() {
    // The table is at byte 10 x 512 = 5,120.
    let image = small(10, &[0, 1, 2]);
    let to = |grain, table| way(grain, [4608, 10], table);
    for kind in ZEROS {
        let image = of(&image, kind);
        assert_eq!(asked(&image, 7), to(0, [5120, 0]));
        assert_eq!(asked(&image, 11), zero(to(1, [5124, 1])));
        assert_eq!(asked(&image, 16), stored(2, to(2, [5128, 2])));
    }
    for kind in SECTOR {
        let image = of(&image, kind);
        let grain_1 = one_is_sector(to(1, [5124, 1]));
        assert_eq!(asked(&image, 7), one_is_sector(to(0, [5120, 0])));
        assert_eq!(asked(&image, 8), stored(1, grain_1));
        assert_eq!(asked(&image, 11), stored(4, grain_1));
    }
}

#[test]
fn packed_grains() {
    // The footer's directory is at sector 1, its table at byte 1,024.
    let mut image = closed();
    let to = |grain, table| way(grain, [512, 2], table);
    assert_eq!(asked(&image, 7), packed([6, 1012, 7], to(0, [1024, 6])));
    assert_eq!(asked(&image, 8), to(1, [1028, 0]));
    assert_eq!(asked(&image, 17), packed([9, 500, 1], to(2, [1032, 9])));
    set(&mut image, 1, 1);
    assert_eq!(asked(&image, 8), zero(to(1, [1028, 1])));
}

#[test]
fn a_packed_grain_at_sector_1() {
    let mut image = of(&small(10, &[0, 1]), [1, 1]);
    (image[10], image[77]) = (1, 1);
    put64(&mut image, 512, 8);
    put32(&mut image, 520, 100);
    let grain_1 = one_is_sector(way(1, [4608, 10], [5124, 1]));
    assert_eq!(asked(&image, 11), packed([1, 100, 3], grain_1));
    image[512] = 9;
    assert_eq!(asked(&image, 11), refused(10, 1, grain_1));
    (image[4], image[8]) = (2, 5);
    let grain_1 = way(1, [4608, 10], [5124, 1]);
    assert_eq!(asked(&image, 11), zero(grain_1));
}

#[test]
fn the_directory_that_the_footer_names() {
    // Another directory at byte 20 x 512 = 10,240, whose table is at byte 24 x 512 = 12,288.
    let mut image = closed();
    put_entries(&mut image, 20, &[24]);
    put_entries(&mut image, 24, &[0, 9, 1]);
    put64(&mut image, 9 * 512, 8);
    let own = way(1, [512, 2], [1028, 0]);
    assert_eq!(asked(&image, 13), own);
    put_footer(&mut image, 20);
    let to = |grain, table| way(grain, [10_240, 24], table);
    assert_eq!(asked(&image, 0), to(0, [12_288, 0]));
    assert_eq!(asked(&image, 13), packed([9, 500, 5], to(1, [12_292, 9])));
    assert_eq!(asked(&image, 16), zero(to(2, [12_296, 1])));
    // Where there is no footer, the last but one sector is a sector like any other.
    put64(&mut image, 56, 1);
    assert_eq!(asked(&image, 13), own);
}
