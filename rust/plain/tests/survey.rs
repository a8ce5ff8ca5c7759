//! The survey: rows, totals and tally of images laid out by hand.

mod common;
#[path = "common/faulty.rs"]
mod faulty;
#[path = "common/parts.rs"]
mod parts;

use common::{kdmv, put32, put64, set};
use faulty::{faulty, mixed, stream};
use parts::put_entries;
use plain::{check, lookup, survey, Surveyed, ABSENT, PACKED, STORED, ZERO};

/// What both lists hold before a call; no row and no tally has such a word.
const HELD: u64 = 0x0123_4567_89ab_cdef;

type Row = [u64; 6];

fn lengths(images: &[&[u8]]) -> Vec<u64> {
    images.iter().map(|image| image.len() as u64).collect()
}

/// The four numbers of an accepted image, asked of the lookup grain by grain.
fn by_lookup(image: &[u8]) -> [u64; 4] {
    let verdict = check(image);
    let mut counts = [0; 4];
    let mut sector = 0;
    while sector < verdict.capacity {
        let located = lookup(image, sector);
        assert_eq!(located.number, 0);
        let kinds = [STORED, ZERO, ABSENT, PACKED];
        let kind = kinds.iter().position(|kind| *kind == located.kind);
        counts[kind.unwrap()] += 1;
        sector += verdict.grain_size;
    }
    counts
}

/// Answer, rows and tally, asked for with room to spare, whose words keep what they held.
fn surveyed(images: &[&[u8]]) -> (Surveyed, Vec<Row>, Vec<u64>) {
    let mut rows = vec![HELD; 6 * images.len() + 7];
    let mut tally = vec![HELD; 65];
    let answer = survey(&images.concat(), &lengths(images), &mut rows, &mut tally);
    assert_eq!((answer.number, answer.place), (0, 0));
    assert_eq!(rows.split_off(6 * images.len()), [HELD; 7]);
    assert_eq!(tally.split_off(63), [HELD; 2]);
    let rows = rows.chunks(6).map(|row| row.try_into().unwrap());
    (answer, rows.collect(), tally)
}

/// The row of one image. Of an accepted one, the totals are its numbers; of a refused one, its number is tallied alone.
fn row(image: &[u8]) -> Row {
    let (answer, rows, tally) = surveyed(&[image]);
    let row = rows[0];
    let verdict = check(image);
    assert_eq!(row[4..], [verdict.number, verdict.place]);
    let totals = [answer.stored, answer.zero, answer.absent, answer.packed];
    assert_eq!(row[..4], totals);
    for (word, tallied) in (1..).zip(tally) {
        assert_eq!(tallied, u64::from(word == verdict.number), "{word}");
    }
    row
}

/// The row's four numbers of an accepted image, which are the lookup's.
fn counts(image: &[u8]) -> [u64; 4] {
    let row = row(image);
    assert_eq!(row[4..], [0, 0]);
    assert_eq!(row[..4], by_lookup(image));
    [row[0], row[1], row[2], row[3]]
}

#[test]
fn stored_zero_and_absent_grains() {
    let mut image = mixed();
    assert_eq!(counts(&image), [3, 1, 1, 0]);
    assert_eq!(row(&image), [3, 1, 1, 0, 0, 0]);
    // Entries past the last grain are not counted, of whatever kind.
    put_entries(&mut image, 2, &[6, 1, 0, 14, 22, 1, 0, 99]);
    assert_eq!(counts(&image), [3, 1, 1, 0]);
    // The bytes past the last whole sector make no grain.
    image.extend([1; 511]);
    assert_eq!(counts(&image), [3, 1, 1, 0]);
}

#[test]
fn the_last_grain() {
    let mut image = mixed();
    // Capacity ends with the fifth grain, with the fourth, and inside the first.
    for (capacity, expected) in [(40, [3, 1, 1, 0]), (32, [2, 1, 1, 0]), (1, [1, 0, 0, 0])] {
        put64(&mut image, 12, capacity);
        assert_eq!(counts(&image), expected, "{capacity}");
    }
    put64(&mut image, 12, 33);
    set(&mut image, 4, 1);
    assert_eq!(counts(&image), [2, 2, 1, 0]);
    set(&mut image, 4, 0);
    assert_eq!(counts(&image), [2, 1, 2, 0]);
}

#[test]
fn directory_entries_of_0_and_1() {
    // 1,540 grains: three tables' and four more, the last of which capacity ends in.
    let mut image = kdmv(3 * 4096 + 25, 8, 14);
    set(&mut image, 511, 6);
    for (directory, expected) in [
        ([2, 0, 1, 1, 1], [1, 516, 1023, 0]),
        ([2, 0, 1, 0, 1], [1, 512, 1027, 0]),
        ([2, 1, 1, 0, 99], [1, 1024, 515, 0]),
        ([0, 0, 0, 0, 1], [0, 0, 1540, 0]),
        ([1, 1, 1, 1, 0], [0, 1540, 0, 0]),
        // The table's last entries are then past the last grain.
        ([1, 0, 1, 2, 0], [0, 1024, 516, 0]),
    ] {
        put_entries(&mut image, 1, &directory);
        assert_eq!(counts(&image), expected, "{directory:?}");
    }
}

#[test]
fn the_largest_disks() {
    // 1 TiB in grains of 64 KiB: 32,768 directory entries in 256 sectors.
    let mut image = kdmv(1 << 31, 128, 257);
    put_entries(&mut image, 1, &[0]);
    assert_eq!(row(&image), [0, 0, 16_777_216, 0, 0, 0]);
    put_entries(&mut image, 256, &[0, 1]);
    assert_eq!(row(&image), [0, 512, 16_776_704, 0, 0, 0]);
    // As many grains as there can be: each is 8 sectors. Seventeen such disks have more than a u32 counts.
    let mut image = kdmv(1 << 31, 8, 1 + 4096);
    put_entries(&mut image, 1, &[0]);
    assert_eq!(row(&image), [0, 0, 1 << 28, 0, 0, 0]);
    let (answer, rows, _) = surveyed(&[&image[..]; 17]);
    assert_eq!(rows, [[0, 0, 1 << 28, 0, 0, 0]; 17]);
    assert_eq!(answer.absent, 17 << 28);
}

#[test]
fn packed_grains() {
    assert_eq!(counts(&stream()), [0, 1, 1, 2]);
    // Compressed without markers, where a directory entry of 1 is zeros too.
    let mut image = kdmv(4097, 8, 7);
    put32(&mut image, 8, 0x10005);
    image[77] = 1;
    put_entries(&mut image, 1, &[2, 1]);
    set(&mut image, 0, 6);
    put32(&mut image, 6 * 512 + 8, 500);
    assert_eq!(counts(&image), [0, 1, 511, 1]);
}

#[test]
fn refused_images() {
    let images = faulty();
    for (number, image) in (1..).zip(&images) {
        let place = match number {
            8 => 4,
            9 => 3,
            10 => 2,
            _ => 0,
        };
        assert_eq!(row(image), [0, 0, 0, 0, number, place], "{number}");
    }
    // Number n once, and 2 and 12 once more.
    let mut list: Vec<&[u8]> = images.iter().map(Vec::as_slice).collect();
    list.extend([list[11], list[1]]);
    let (answer, rows, tally) = surveyed(&list);
    assert_eq!(answer, Surveyed::default());
    assert_eq!(rows[8..10], [[0, 0, 0, 0, 9, 3], [0, 0, 0, 0, 10, 2]]);
    assert_eq!(rows[12..], [[0, 0, 0, 0, 12, 0], [0, 0, 0, 0, 2, 0]]);
    assert_eq!(tally[..13], [1, 2, 1, 1, 1, 1, 1, 1, 1, 1, 1, 2, 0]);
    assert!(tally[13..].iter().all(|word| *word == 0));
}

#[test]
fn totals_of_the_accepted_ones() {
    let (first, packed, faulty) = (mixed(), stream(), faulty());
    // The images after this one start inside a sector.
    let uneven = [&first[..], &[7; 3]].concat();
    let old = [&b"COWD"[..], &[0; 2044]].concat();
    let images = [&uneven, &faulty[11], &packed, &faulty[8], &old, &first];
    let images = images.map(Vec::as_slice);
    let (answer, rows, tally) = surveyed(&images);
    let expected = [
        [3, 1, 1, 0, 0, 0],
        [0, 0, 0, 0, 12, 0],
        [0, 1, 1, 2, 0, 0],
        [0, 0, 0, 0, 9, 3],
        [0, 0, 0, 0, 43, 0],
        [3, 1, 1, 0, 0, 0],
    ];
    assert_eq!(rows, expected);
    let totals = [answer.stored, answer.zero, answer.absent, answer.packed];
    assert_eq!(totals, [6, 3, 3, 2]);
    assert_eq!([tally[8], tally[11], tally[42]], [1; 3]);
    assert_eq!(tally.iter().sum::<u64>(), 3);
}
