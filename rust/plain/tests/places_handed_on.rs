//! Request A8: every call that refuses an image for its areas hands on the place.

mod common;
#[path = "common/laid.rs"]
mod laid;
#[path = "common/marks.rs"]
mod marks;
#[path = "common/parts.rs"]
mod parts;

use common::put64;
use laid::{closed, furnished, with};
use plain::{chain, check, collapse, mend, normal, over, survey, Refusal, Written};

/// An image for each place from 1 to 5.
fn outside() -> Vec<Vec<u8>> {
    let mut images = Vec::new();
    for at in [28, 56, 48] {
        let mut image = furnished();
        put64(&mut image, at, 74);
        images.push(image);
    }
    images.extend([with(&[(4, &[10, 71])]), with(&[(5, &[30, 71])])]);
    images
}

/// The refusal with this place.
fn eight(place: u64) -> Refusal {
    Refusal { number: 8, place }
}

#[test]
fn the_check() {
    for (place, image) in (1..).zip(outside()) {
        let verdict = check(&image);
        assert_eq!((verdict.number, verdict.place), (8, place));
        assert_eq!((verdict.capacity, verdict.grain_size), (0, 0));
    }
}

#[test]
fn the_check_in_a_list() {
    for (place, image) in (1..).zip(outside()) {
        assert_eq!(marks::marked(&image), (8, place, 0));
    }
    // An accepted image, and one whose areas meet, have none.
    assert_eq!(marks::accepted(&furnished()), 46);
    let mut image = furnished();
    put64(&mut image, 28, 2);
    assert_eq!(marks::refused(&image), 4);
}

#[test]
fn chains_name_layer_and_place() {
    let images = outside();
    let sound = furnished();
    for (place, image) in (1..).zip(&images) {
        for (layers, layer) in [([image, &sound], 0), ([&sound, image], 1)] {
            let bytes = layers.map(Vec::as_slice).concat();
            // Sector 8 is absent in each layer, so that both are asked; so is 4,096, of the second table.
            for (sector, refused) in [(8, place == 2), (4096, place == 2 || place == 4)] {
                let found = chain(&bytes, &[sound.len() as u64; 2], sector);
                let expected = if refused {
                    (8, layer, place)
                } else {
                    (0, 0, 0)
                };
                assert_eq!((found.number, found.layer, found.place), expected);
            }
        }
    }
}

#[test]
fn a_chain_s_topmost_layer_first() {
    let images = outside();
    let lengths = [images[0].len() as u64; 2];
    for (lower, upper, expected) in [(1, 3, (8, 1, 4)), (3, 1, (8, 1, 2)), (3, 4, (8, 0, 4))] {
        let bytes = [&images[lower][..], &images[upper]].concat();
        let found = chain(&bytes, &lengths, 4096);
        assert_eq!((found.number, found.layer, found.place), expected);
    }
}

#[test]
fn collapse_and_normal_form() {
    let (images, sound) = (outside(), furnished());
    for (place, image) in (1..).zip(&images) {
        assert_eq!(normal(image, 1 << 20), Err(eight(place)));
        assert_eq!(collapse(image, &sound, 1 << 20), Err(eight(place)));
        assert_eq!(collapse(&sound, image, 1 << 20), Err(eight(place)));
        // The lower's check comes first.
        for upper in &images {
            assert_eq!(collapse(image, upper, 0), Err(eight(place)));
        }
        let mut out = [3; 8];
        let expected = Written {
            number: 8,
            place,
            length: 0,
        };
        assert_eq!(over(normal(image, 8), &mut out), expected);
        assert_eq!(out, [3; 8]);
    }
}

#[test]
fn mending() {
    for (place, image) in (1..).zip(outside()) {
        for good in [0, 1] {
            let (mut after, mut list) = (image.clone(), [9; 3]);
            let answer = mend(&mut after, good, &mut list);
            let found = (answer.number, answer.place, answer.count);
            assert_eq!(found, (8, place, 0));
            assert_eq!((after, list), (image.clone(), [9; 3]));
        }
    }
}

#[test]
fn mending_without_a_redundant_directory() {
    // 40 comes after 8, of which only 1, 2 and 4 are left.
    for (place, mut image) in (1..).zip(outside()) {
        put64(&mut image, 48, 0);
        let answer = mend(&mut image, 0, &mut []);
        let expected = match place {
            3 | 5 => (40, 0),
            _ => (8, place),
        };
        assert_eq!((answer.number, answer.place), expected);
    }
}

#[test]
fn a_survey_s_row() {
    let images = outside();
    let lengths = vec![images[0].len() as u64; 5];
    let (mut rows, mut tally) = ([9; 30], [9; 63]);
    let answer = survey(&images.concat(), &lengths, &mut rows, &mut tally);
    assert_eq!((answer.number, answer.place), (0, 0));
    for (place, row) in (1..).zip(rows.chunks(6)) {
        assert_eq!(row, [0, 0, 0, 0, 8, place]);
    }
    assert_eq!((tally[7], tally.iter().sum()), (5, 5_u64));
}

#[test]
fn packed_images() {
    // Sector 0 names the directory, or the footer does.
    for at in [56, 68 * 512 + 56] {
        let mut image = closed();
        put64(&mut image, at, 70);
        assert_eq!((check(&image).number, check(&image).place), (8, 2));
        assert_eq!(normal(&image, 0), Err(eight(2)));
    }
}
