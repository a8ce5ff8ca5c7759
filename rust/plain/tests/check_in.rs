//! Request A6: what the check in a lent list marks of accepted images, added up by hand.

mod common;
#[path = "common/faulty.rs"]
mod faulty;
#[path = "common/marks.rs"]
mod marks;
#[path = "common/parts.rs"]
mod parts;

use common::{kdmv, put32, put64, set};
use faulty::{faulty, mixed, stream};
use marks::{accepted, marked, refused, HELD};
use parts::{pack, put_entries, put_footer};
use plain::{check_in, Marked};

#[test]
fn the_whole_answer() {
    let expected = Marked {
        number: 0,
        place: 0,
        capacity: 200,
        grain_size: 128,
        marked: 6,
    };
    assert_eq!(check_in(&kdmv(200, 128, 6), &mut [7]), expected);
    let mut image = kdmv(200, 128, 300);
    set(&mut image, 0, 6);
    set(&mut image, 1, 133);
    let expected = Marked {
        number: 12,
        marked: 134,
        ..Marked::default()
    };
    assert_eq!(check_in(&image, &mut [7; 5]), expected);
    let expected = Marked {
        number: 21,
        ..Marked::default()
    };
    assert_eq!(check_in(&image, &mut [7; 4]), expected);
    set(&mut image, 1, 173);
    let expected = Marked {
        number: 9,
        place: 1,
        ..Marked::default()
    };
    assert_eq!(check_in(&image, &mut [7; 4]), expected);
}

#[test]
fn header_directory_and_table() {
    // 1 + 1 + 4, however much of the file is in no area.
    for sectors in [6, 7, 63, 64, 65, 200] {
        assert_eq!(accepted(&kdmv(200, 128, sectors)), 6, "{sectors}");
    }
    // A directory entry that is absent or zero has no table.
    for entry in [0, 1] {
        let mut image = kdmv(200, 128, 6);
        put_entries(&mut image, 1, &[entry]);
        assert_eq!(accepted(&image), 2, "{entry}");
    }
    // An entry past n has none either.
    let mut image = kdmv(4096, 8, 14);
    put_entries(&mut image, 1, &[2, 10]);
    assert_eq!(accepted(&image), 6);
    put64(&mut image, 12, 4097);
    assert_eq!(accepted(&image), 10);
}

#[test]
fn a_descriptor() {
    let mut image = kdmv(200, 128, 80);
    for (first, sectors, expected) in [(6, 3, 9), (6, 1, 7), (79, 1, 7), (6, 74, 80)] {
        put64(&mut image, 28, first);
        put64(&mut image, 36, sectors);
        assert_eq!(accepted(&image), expected, "{first} {sectors}");
    }
}

#[test]
fn a_directory_of_two_sectors() {
    let mut image = kdmv(128 * 4096, 8, 20);
    put_entries(&mut image, 1, &[3]);
    assert_eq!(accepted(&image), 1 + 1 + 4);
    put64(&mut image, 12, 128 * 4096 + 1);
    assert_eq!(accepted(&image), 1 + 2 + 4);
    put64(&mut image, 48, 10);
    put_entries(&mut image, 10, &[12]);
    assert_eq!(accepted(&image), 1 + 2 + 2 + 4 + 4);
}

#[test]
fn stored_grains() {
    // Three grains of 8 sectors fill the file; that capacity ends in the last one takes nothing from its area.
    let mut image = mixed();
    assert_eq!(accepted(&image), 6 + 3 * 8);
    image.extend([9; 511]);
    assert_eq!(accepted(&image), 30);
    // Entries past the last grain are no area.
    set(&mut image, 5, 6);
    set(&mut image, 511, 99);
    assert_eq!(accepted(&image), 30);
    for (entry, expected) in [(0, 22), (1, 22), (22, 30)] {
        set(&mut image, 4, entry);
        assert_eq!(accepted(&image), expected, "{entry}");
    }
    let mut image = kdmv(1, 2048, 2054);
    set(&mut image, 0, 6);
    assert_eq!(accepted(&image), 2054);
}

#[test]
fn copies_count_and_their_grains_only_once() {
    let mut image = kdmv(25, 8, 40);
    put64(&mut image, 48, 10);
    put_entries(&mut image, 10, &[11]);
    assert_eq!(accepted(&image), 1 + 1 + 1 + 4 + 4);
    set(&mut image, 2, 20);
    put_entries(&mut image, 11, &[0, 0, 20]);
    assert_eq!(accepted(&image), 1 + 1 + 1 + 4 + 4 + 8);
    // Flag 0x2 changes nothing.
    put32(&mut image, 8, 7);
    assert_eq!(accepted(&image), 19);
}

#[test]
fn packed_grains() {
    let mut image = kdmv(16, 8, 70);
    pack(&mut image);
    set(&mut image, 0, 60);
    for (size, sectors) in [(1, 1), (500, 1), (501, 2), (1012, 2), (1013, 3), (5108, 10)] {
        put32(&mut image, 60 * 512 + 8, size);
        assert_eq!(accepted(&image), 6 + sectors, "{size}");
    }
    put32(&mut image, 60 * 512 + 8, 5109);
    assert_eq!(marked(&image), (9, 0, 0));
}

#[test]
fn a_footer_and_the_last_sector() {
    // Header, directory, table, footer, last sector, two packed grains.
    assert_eq!(accepted(&stream()), 1 + 1 + 4 + 1 + 1 + 2 + 1);
    let mut image = kdmv(16, 8, 8);
    pack(&mut image);
    assert_eq!(accepted(&image), 6);
    put_footer(&mut image, 1);
    assert_eq!(accepted(&image), 8);
}

#[test]
fn every_group() {
    // Two tables each way, and two packed grains, of 2 sectors and 1.
    let mut image = kdmv(4097, 8, 130);
    pack(&mut image);
    put64(&mut image, 28, 126);
    put64(&mut image, 36, 2);
    put64(&mut image, 48, 100);
    put_footer(&mut image, 90);
    for (directory, tables) in [(90, [62, 80]), (100, [70, 10])] {
        put_entries(&mut image, directory, &tables);
        put_entries(&mut image, tables[0] as usize, &[20, 0, 1]);
        put_entries(&mut image, tables[1] as usize, &[40]);
    }
    put32(&mut image, 20 * 512 + 8, 501);
    put64(&mut image, 40 * 512, 4096);
    put32(&mut image, 40 * 512 + 8, 500);
    assert_eq!(accepted(&image), 1 + 2 + 1 + 1 + 8 + 8 + 1 + 1 + 2 + 1);
}

#[test]
fn a_table_and_a_grain_at_sector_1() {
    // Version 1, where an entry of 1 is a sector.
    let mut image = kdmv(33, 8, 30);
    (image[4], image[8], image[72]) = (1, 1, 255);
    let mut table = image.clone();
    put64(&mut table, 56, 5);
    put_entries(&mut table, 5, &[1]);
    put_entries(&mut table, 1, &[6, 0, 14]);
    assert_eq!(accepted(&table), 1 + 1 + 4 + 16);
    put64(&mut image, 56, 9);
    put_entries(&mut image, 9, &[10]);
    put_entries(&mut image, 10, &[0, 1, 14]);
    assert_eq!(accepted(&image), 1 + 1 + 4 + 16);
}

#[test]
fn the_largest_directories() {
    let mut image = kdmv(1 << 31, 128, 257);
    put_entries(&mut image, 1, &[0]);
    for held in HELD {
        let mut list = [held; 6];
        let found = check_in(&image, &mut list);
        assert_eq!((found.number, found.marked), (0, 257));
        assert_eq!(list, [0, 0, 0, 0, 0, held]);
    }
    let mut image = kdmv(1 << 31, 8, 1 + 4096);
    put_entries(&mut image, 1, &[0]);
    let mut list = [u64::MAX; 65];
    let found = check_in(&image, &mut list);
    assert_eq!((found.number, found.marked, list), (0, 4097, [0; 65]));
}

#[test]
fn refused_images() {
    let mut images = faulty();
    // The frame's 6 sectors and the first grain at 6; the fourth is at 13.
    assert_eq!(refused(&images.pop().unwrap()), 6 + 8);
    for (number, image) in (1..).zip(images) {
        let place = match number {
            8 => 4,
            9 => 3,
            10 => 2,
            _ => 0,
        };
        assert_eq!(marked(&image), (number, place, 0));
    }
    assert_eq!(marked(b""), (1, 0, 0));
    assert_eq!(marked(&kdmv(200, 128, 6)[..511]), (1, 0, 0));
    assert_eq!(marked(&kdmv(200, 128, 6)[..512]), (8, 2, 0));
}
