//! Refusals 8 and 9: how far the way goes where a directory, a table or a grain runs past the end, and where it just fits.

use super::common::{kdmv, put32, put64, set};
use super::laid::{closed, furnished, put_packed, with};
use super::parts::{put_entries, put_footer};
use super::versions::of;
use super::ways::{asked, one_is_sector, packed, refused, stored, way, NONE};

#[test]
fn the_directory_past_the_end() {
    for (directory, sector, grain) in [(0, 0, 0), (74, 4120, 515), (u64::MAX - 1, 4096, 512)] {
        let mut image = furnished();
        put64(&mut image, 56, directory);
        let outside = refused(8, 2, way(grain, NONE, NONE));
        assert_eq!(asked(&image, sector), outside, "{directory}");
        let image = of(&image, [3, 1]);
        assert_eq!(asked(&image, sector), one_is_sector(outside));
    }
    // The last sector, which is of a grain of zero bytes.
    let mut image = furnished();
    put64(&mut image, 56, 73);
    assert_eq!(asked(&image, 4120), way(515, [37_380, 0], NONE));
}

#[test]
fn a_directory_of_two_sectors() {
    // n is 129: entry 127 ends the first sector, at 38 x 512 + 508, and entry 128 starts the second, at 39 x 512.
    let mut image = kdmv(128 * 4096 + 1, 8, 40);
    put64(&mut image, 56, 38);
    put_entries(&mut image, 39, &[3]);
    put_entries(&mut image, 3, &[9]);
    assert_eq!(asked(&image, 0), way(0, [19_456, 0], NONE));
    assert_eq!(asked(&image, 524_287), way(65_535, [19_964, 0], NONE));
    let last = way(65_536, [19_968, 3], [1536, 9]);
    assert_eq!(asked(&image, 524_288), stored(9, last));
    put64(&mut image, 56, 39);
    let outside = |grain| refused(8, 2, way(grain, NONE, NONE));
    assert_eq!(asked(&image, 0), outside(0));
    assert_eq!(asked(&image, 524_288), outside(65_536));
}

#[test]
fn the_footer_s_directory_past_the_end() {
    for directory in [0, 1, 69, 70] {
        let mut image = closed();
        put_footer(&mut image, directory);
        let expected = match directory {
            1 => packed([9, 500, 1], way(2, [512, 2], [1032, 9])),
            // The last sector, all of whose bytes are 0.
            69 => way(2, [35_328, 0], NONE),
            _ => refused(8, 2, way(2, NONE, NONE)),
        };
        assert_eq!(asked(&image, 17), expected, "{directory}");
    }
}

#[test]
fn a_table_past_the_end() {
    // 74 sectors: a table of four at 70 ends with them.
    let image = with(&[(4, &[70, 20])]);
    assert_eq!(asked(&image, 0), way(0, [2048, 70], [35_840, 0]));
    assert_eq!(asked(&image, 4095), way(511, [2048, 70], [37_884, 0]));
    for table in [71, u32::MAX] {
        let image = with(&[(4, &[table, 20])]);
        let outside = refused(8, 4, way(511, [2048, table.into()], NONE));
        assert_eq!(asked(&image, 4095), outside);
        assert_eq!(asked(&of(&image, [1, 1]), 4095), one_is_sector(outside));
        assert_eq!(asked(&image, 4096), way(512, [2052, 20], [10_240, 0]));
    }
    // The second's refusal is its own; bytes that are no whole sector are none of the file's.
    let mut image = with(&[(4, &[10, 71])]);
    let outside = refused(8, 4, way(514, [2052, 71], NONE));
    assert_eq!(asked(&image, 4112), outside);
    image.resize(74 * 512 + 511, 7);
    assert_eq!(asked(&image, 4112), outside);
    image.resize(75 * 512, 7);
    let entry = [36_360, 0];
    assert_eq!(asked(&image, 4112), way(514, [2052, 71], entry));
}

#[test]
fn a_grain_past_the_end() {
    for (entry, fits) in [(66, true), (67, false), (u32::MAX, false)] {
        let image = with(&[(10, &[58, 0, entry])]);
        let grain_2 = way(2, [2048, 10], [5128, entry.into()]);
        for sector in 16..24 {
            let expected = if fits {
                stored(50 + sector, grain_2)
            } else {
                refused(9, 2, grain_2)
            };
            assert_eq!(asked(&image, sector), expected, "{entry}");
        }
        assert_eq!(asked(&image, 24), way(3, [2048, 10], [5132, 0]));
    }
    // The last grain has a full area though capacity ends in it.
    let image = with(&[(20, &[0, 0, 0, 67])]);
    let grain_515 = way(515, [2052, 20], [10_252, 67]);
    assert_eq!(asked(&image, 4120), refused(9, 515, grain_515));
}

#[test]
fn a_packed_grain_past_the_end() {
    // Four sectors from 66 on are the last of 70, from 67 on one is missing; a marker at 70 is not there at all.
    let to = |entry| way(4, [512, 2], [1040, entry]);
    for (at, size, fits) in [(66, 2036, true), (66, 2037, false), (67, 2036, false)] {
        let mut image = closed();
        put_packed(&mut image, 4, at, 4);
        put32(&mut image, at * 512 + 8, size);
        let grain_4 = to(at as u64);
        let expected = if fits {
            packed([66, 2036, 0], grain_4)
        } else {
            refused(9, 4, grain_4)
        };
        assert_eq!(asked(&image, 32), expected, "{at} {size}");
    }
    for entry in [70, u32::MAX] {
        let mut image = closed();
        set(&mut image, 4, entry);
        assert_eq!(asked(&image, 32), refused(9, 4, to(entry.into())));
    }
}
