//! Images that meet the profile, laid down by hand, and the profile's answers.

use super::common::{kdmv, put64};
use super::parts::put_entries;
use plain::{profile, Verdict};

/// An image of so many sectors with the profile's grain size and one table, and these entries in it.
pub fn laid(capacity: u64, sectors: usize, entries: &[u32]) -> Vec<u8> {
    let mut image = kdmv(capacity, 128, sectors);
    put64(&mut image, 64, 128);
    put_entries(&mut image, 2, entries);
    image
}

/// Four grains: stored, zero, absent, stored. Each stored sector holds its own number.
pub fn published() -> Vec<u8> {
    let mut image = laid(512, 384, &[128, 1, 0, 256]);
    for (sector, bytes) in image.chunks_mut(512).enumerate().skip(128) {
        bytes.fill(sector as u8);
    }
    image
}

/// Four absent grains.
pub fn empty() -> Vec<u8> {
    laid(512, 128, &[])
}

/// That an image of this capacity meets the profile.
pub fn assert_meets(image: &[u8], capacity: u64) {
    let expected = Verdict {
        capacity,
        grain_size: 128,
        ..Verdict::default()
    };
    assert_eq!(profile(image), expected);
}

/// Number and place of a refusal, which has no other number.
pub fn refused(image: &[u8]) -> (u64, u64) {
    let answer = profile(image);
    let expected = Verdict {
        number: answer.number,
        place: answer.place,
        ..Verdict::default()
    };
    assert_eq!(answer, expected);
    assert_ne!(answer.number, 0);
    (answer.number, answer.place)
}
