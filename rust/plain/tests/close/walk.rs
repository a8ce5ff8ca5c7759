//! How far the walk goes, and what is kept.

use super::starts::{add, add_grain, closed, joined, start, Grain};

/// Six grains, the last of three sectors of the disk; at 3 and 5 stand grains 0 and 2.
const CAPACITY: u64 = 43;
const FIRST_TWO: [Grain; 2] = [(0, 3, 600), (2, 5, 500)];

fn first_two() -> Vec<u8> {
    let mut image = start(CAPACITY, 3);
    add_grain(&mut image, 0, 600);
    add_grain(&mut image, 2, 500);
    image
}

#[test]
fn nothing_but_what_stands_before_overhead() {
    for overhead in [2, 3, 9] {
        let image = start(CAPACITY, overhead);
        let whole = closed(&image, overhead as u64, &[]);
        // A marker and a directory, a marker, the footer and the last sector.
        assert_eq!(whole.len(), (overhead + 5) * 512);
    }
}

#[test]
fn whole_grains() {
    let mut image = first_two();
    closed(&image, 6, &FIRST_TWO);
    add_grain(&mut image, 5, 1);
    let [first, second] = FIRST_TWO;
    closed(&image, 7, &[first, second, (5, 6, 1)]);
    // All of them, and one that is not the first.
    let mut image = start(CAPACITY, 2);
    let mut grains = Vec::new();
    for grain in 0..6 {
        add_grain(&mut image, grain, 500);
        grains.push((grain, grain + 2, 500));
        closed(&image, grain + 3, &grains);
    }
    let mut image = start(CAPACITY, 2);
    add_grain(&mut image, 5, 500);
    closed(&image, 3, &[(5, 2, 500)]);
}

#[test]
fn sizes_of_grains() {
    // A marker takes 12 bytes of the first sector.
    for (size, sectors) in [
        (1, 1),
        (499, 1),
        (500, 1),
        (501, 2),
        (1012, 2),
        (1013, 3),
        (1 << 18, 513),
    ] {
        let mut image = start(CAPACITY, 2);
        add_grain(&mut image, 1, size);
        add_grain(&mut image, 3, 7);
        let kept = [(1, 2, size.into()), (3, 2 + sectors, 7)];
        closed(&image, 3 + sectors, &kept);
    }
}

#[test]
fn cut_anywhere() {
    // Sectors 3 and 4 hold grain 0, sector 5 grain 2; bytes of a sector that is not whole count for nothing.
    let image = first_two();
    for length in 3 * 512..=6 * 512 {
        let (sectors, grains) = match length / 512 {
            3 | 4 => (3, 0),
            5 => (5, 1),
            _ => (6, 2),
        };
        if length % 512 < 3 || length % 512 > 509 || length % 97 == 0 {
            closed(&image[..length], sectors, &FIRST_TWO[..grains]);
        }
    }
    let mut image = first_two();
    image.resize(7 * 512 - 1, 0xee);
    closed(&image, 6, &FIRST_TWO);
}

#[test]
fn grains_that_run_past_the_end() {
    for size in [501, 1013, 1 << 20, u32::MAX - 11, u32::MAX] {
        let mut image = first_two();
        add(&mut image, 24, size, 0, 0);
        closed(&image, 6, &FIRST_TWO);
    }
    // The last sector of the grain is not there; then it is.
    let mut image = first_two();
    add(&mut image, 24, 1013, 0, 1);
    closed(&image, 6, &FIRST_TWO);
    image.resize(image.len() + 512, 0);
    closed(&image, 9, &[FIRST_TWO[0], FIRST_TWO[1], (3, 6, 1013)]);
}

#[test]
fn tables_between_grains() {
    let mut image = first_two();
    add(&mut image, 4, 0, 1, 4);
    // Not kept until a grain follows.
    closed(&image, 6, &FIRST_TWO);
    add_grain(&mut image, 4, 9);
    closed(&image, 12, &[FIRST_TWO[0], FIRST_TWO[1], (4, 11, 9)]);
    // Of four sectors whatever its first number is; two one after the other; one before all grains.
    for first in [0, 1, u64::MAX] {
        let mut image = start(CAPACITY, 2);
        add(&mut image, first, 0, 1, 4);
        add_grain(&mut image, 1, 9);
        add(&mut image, first, 0, 1, 4);
        add(&mut image, first, 0, 1, 4);
        closed(&image, 8, &[(1, 7, 9)]);
        add_grain(&mut image, 2, 9);
        closed(&image, 19, &[(1, 7, 9), (2, 18, 9)]);
    }
}

#[test]
fn tables_and_directories_not_wholly_there() {
    for (kind, sectors) in [(1, 4), (2, 1)] {
        for there in 0..sectors {
            let mut image = first_two();
            add(&mut image, 4, 0, kind, there);
            closed(&image, 6, &FIRST_TWO);
            image.resize(image.len() + 511, 0);
            closed(&image, 6, &FIRST_TWO);
        }
    }
    // What follows three sectors is taken for the table's fourth.
    let mut image = first_two();
    add(&mut image, 4, 0, 1, 3);
    add_grain(&mut image, 4, 9);
    add_grain(&mut image, 5, 9);
    closed(&image, 12, &[FIRST_TWO[0], FIRST_TWO[1], (5, 11, 9)]);
}

#[test]
fn directories_by_the_size_of_document_01() {
    // 128 entries of 512 grains of 8 sectors fill a sector, whatever the marker's first number is.
    for (capacity, sectors) in [(43, 1), (128 * 4096, 1), (128 * 4096 + 1, 2), (1 << 21, 4)] {
        for first in [0, 1, 2, 4, u64::MAX] {
            let mut image = start(capacity, 2);
            add_grain(&mut image, 0, 9);
            add(&mut image, first, 0, 2, sectors);
            let at = 4 + sectors as u64;
            add_grain(&mut image, 1, 9);
            joined(&image, at + 1, 2);
            // A sector less, and the grain is taken for the directory's last one.
            image.drain(512 * (at as usize - 1)..512 * at as usize);
            joined(&image, 3, 1);
        }
    }
}

#[test]
fn types_that_stop() {
    for kind in [0, 3, 4, 5, 256, 1 << 16, 1 << 24, 0x0100_0001, u32::MAX] {
        for first in [0, 4, 24] {
            let mut image = first_two();
            add(&mut image, first, 0, kind, 4);
            add_grain(&mut image, 5, 9);
            closed(&image, 6, &FIRST_TWO);
            // With no sector behind the marker either, and before all grains.
            closed(&image[..7 * 512], 6, &FIRST_TWO);
            let mut image = start(CAPACITY, 2);
            add(&mut image, first, 0, kind, 0);
            add_grain(&mut image, 0, 9);
            closed(&image, 2, &[]);
        }
    }
    // A size above 0 makes it a grain, whatever stands at 12.
    for kind in [0, 1, 2, 3, 4] {
        let mut image = first_two();
        add(&mut image, 40, 1, kind, 0);
        closed(&image, 7, &[FIRST_TWO[0], FIRST_TWO[1], (5, 6, 1)]);
    }
}

#[test]
fn first_sectors_that_stop() {
    // No multiple of 8; not below capacity, where 40 is; as the last grain's, or below.
    let wrapped = u64::MAX - 7;
    for first in [25, 28, 31, 41, 42, 43, 48, 1 << 32, wrapped, u64::MAX] {
        let mut image = first_two();
        add(&mut image, first, 9, 0, 0);
        add_grain(&mut image, 4, 9);
        closed(&image, 6, &FIRST_TWO);
        let mut image = start(CAPACITY, 2);
        add(&mut image, first, 9, 0, 0);
        add_grain(&mut image, 0, 9);
        closed(&image, 2, &[]);
    }
    for first in [16, 8, 0] {
        let mut image = first_two();
        add(&mut image, first, 9, 0, 0);
        add_grain(&mut image, 4, 9);
        closed(&image, 6, &FIRST_TWO);
        // Also with a table between them.
        let mut image = first_two();
        add(&mut image, 4, 0, 1, 4);
        add(&mut image, first, 9, 0, 0);
        closed(&image, 6, &FIRST_TWO);
    }
    for first in [24, 32, 40] {
        let mut image = first_two();
        add(&mut image, first, 9, 0, 0);
        closed(&image, 7, &[FIRST_TWO[0], FIRST_TWO[1], (first / 8, 6, 9)]);
    }
}

#[test]
fn capacities_that_end_a_grain() {
    for (capacity, kept) in [(40, false), (41, true), (48, true), (1, false)] {
        let mut image = start(capacity, 2);
        add_grain(&mut image, 5, 9);
        if kept {
            closed(&image, 3, &[(5, 2, 9)]);
        } else {
            closed(&image, 2, &[]);
        }
    }
}

#[test]
fn a_complete_stream_is_a_start_too() {
    let whole = closed(&first_two(), 6, &FIRST_TWO);
    // Whatever follows the footer's marker, which the walk stops at.
    for cut in [whole.len(), whole.len() - 512, whole.len() - 1, 12 * 512] {
        assert!(closed(&whole[..cut], 6, &FIRST_TWO) == whole);
    }
    let mut more = whole.clone();
    add_grain(&mut more, 4, 9);
    assert!(closed(&more, 6, &FIRST_TWO) == whole);
}
