//! Request A6: areas but grains that meet, and the sizes of those before the first that does, added up by hand.

mod common;
#[path = "common/laid.rs"]
mod laid;
#[path = "common/marks.rs"]
mod marks;
#[path = "common/parts.rs"]
mod parts;

use common::put64;
use laid::{closed, furnished, put_packed, with, FIRST, SECOND};
use marks::{accepted, refused};
use parts::{put_entries, put_footer};

#[test]
fn as_they_stand() {
    assert_eq!(accepted(&furnished()), 46);
    assert_eq!(accepted(&closed()), 15);
}

#[test]
fn the_descriptor_and_both_directories() {
    // A descriptor up to the directory or past it comes first, so that the directory is the one that meets.
    for (sectors, expected) in [(4, 1 + 4), (5, 1 + 5), (73, 1 + 73)] {
        let mut image = furnished();
        put64(&mut image, 36, sectors);
        assert_eq!(refused(&image), expected, "{sectors}");
    }
    // The directory in the descriptor, its copy there, its copy on itself, both in the descriptor.
    for (directory, copy, expected) in [(3, 5, 4), (4, 3, 5), (4, 4, 5), (2, 3, 4)] {
        let mut image = furnished();
        put64(&mut image, 56, directory);
        put_entries(&mut image, directory as usize, &[10, 20]);
        put64(&mut image, 48, copy);
        if copy != directory {
            put_entries(&mut image, copy as usize, &[30, 40]);
        }
        assert_eq!(refused(&image), expected, "{directory} {copy}");
    }
}

#[test]
fn primary_tables() {
    // The second in the descriptor, on the first one's start, on its end, and the first one named twice.
    assert_eq!(refused(&with(&[(4, &[10, 2]), (2, SECOND)])), 10);
    assert_eq!(refused(&with(&[(4, &[10, 7]), (7, SECOND)])), 10);
    assert_eq!(refused(&with(&[(4, &[21, 20]), (21, FIRST)])), 10);
    assert_eq!(refused(&with(&[(4, &[10, 10]), (5, &[30, 30])])), 10);
    // The second from 6 to 9, on the directory and then on its copy.
    let mut image = with(&[(8, &[10, 6]), (6, SECOND)]);
    put64(&mut image, 56, 8);
    assert_eq!(refused(&image), 10);
    let mut image = with(&[(4, &[10, 6]), (6, SECOND), (8, &[30, 40])]);
    put64(&mut image, 48, 8);
    assert_eq!(refused(&image), 10);
    // The first from 3 to 6, on the descriptor, where no directory stands any more.
    let mut image = with(&[(3, FIRST), (4, &[0, 0]), (5, &[0, 0])]);
    put64(&mut image, 56, 8);
    put64(&mut image, 48, 9);
    put_entries(&mut image, 8, &[3, 20]);
    put_entries(&mut image, 9, &[30, 40]);
    assert_eq!(refused(&image), 6);
}

#[test]
fn redundant_tables() {
    // On primary ones: the first on its own copy, both, the second, and the second where it only ends on one.
    assert_eq!(refused(&with(&[(5, &[10, 40])])), 14);
    assert_eq!(refused(&with(&[(5, &[10, 20])])), 14);
    assert_eq!(refused(&with(&[(5, &[30, 20])])), 18);
    assert_eq!(refused(&with(&[(5, &[30, 17]), (17, SECOND)])), 18);
    assert_eq!(refused(&with(&[(5, &[30, 7]), (7, SECOND)])), 18);
    // On the first redundant one, and in the descriptor.
    assert_eq!(refused(&with(&[(5, &[30, 27]), (27, SECOND)])), 18);
    assert_eq!(refused(&with(&[(5, &[30, 3]), (3, SECOND)])), 18);
    // Primary tables come first, so a second one that stands on a redundant one lets all of them count.
    assert_eq!(refused(&with(&[(4, &[10, 27]), (27, SECOND)])), 14);
    assert_eq!(refused(&with(&[(4, &[10, 40])])), 18);
}

#[test]
fn footer_and_last_sector() {
    // A descriptor on the footer, on both, on the last sector alone; header, directory and table take 6.
    for (first, sectors, expected) in [(68, 1, 7), (67, 2, 8), (68, 2, 8), (67, 3, 9), (69, 1, 8)] {
        let mut image = closed();
        put64(&mut image, 28, first);
        put64(&mut image, 36, sectors);
        put_footer(&mut image, 1);
        assert_eq!(refused(&image), expected, "{first} {sectors}");
    }
    // A table that ends on the footer, and one that ends with the file.
    for table in [65, 66] {
        let mut image = closed();
        put_entries(&mut image, 1, &[table]);
        put_entries(&mut image, table as usize, &[6, 1, 9, 0, 0]);
        assert_eq!(refused(&image), 6, "{table}");
    }
    // A directory in the last sector, whose zeros name no table; then its copy there.
    let mut image = closed();
    put_footer(&mut image, 69);
    assert_eq!(refused(&image), 1 + 1 + 1);
    put64(&mut image, 48, 69);
    put_entries(&mut image, 1, &[0]);
    put_footer(&mut image, 1);
    assert_eq!(refused(&image), 1 + 1 + 1 + 1);
}

#[test]
fn the_footer_is_no_area_where_it_is_not_used() {
    let mut image = closed();
    put64(&mut image, 56, 1);
    assert_eq!(accepted(&image), 13);
    put_packed(&mut image, 4, 62, 8);
    assert_eq!(accepted(&image), 17);
}
