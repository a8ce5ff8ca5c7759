//! Images for the tests of the dirty number.

use super::common::{kdmv, put32, put64, set};
use super::parts::{pack, put_entries, put_footer};

/// KDMV's byte: each bit alone, all but the lowest, and all.
pub const BYTES: [u8; 10] = [1, 2, 4, 8, 16, 32, 64, 128, 254, 255];

/// An image with another dirty byte.
pub fn with(image: &[u8], dirty: u8) -> Vec<u8> {
    let mut image = image.to_vec();
    image[72] = dirty;
    image
}

/// Three grains, of which the second is stored, with a descriptor.
pub fn small() -> Vec<u8> {
    let mut image = kdmv(20, 8, 20);
    put64(&mut image, 28, 6);
    put64(&mut image, 36, 1);
    put_entries(&mut image, 2, &[0, 9]);
    image[9 * 512..17 * 512].fill(7);
    image
}

/// Two packed grains, of which the second is there, and a footer.
pub fn stream() -> Vec<u8> {
    let mut image = kdmv(16, 8, 12);
    pack(&mut image);
    set(&mut image, 1, 7);
    put64(&mut image, 7 * 512, 8);
    put32(&mut image, 7 * 512 + 8, 501);
    put_footer(&mut image, 1);
    image
}

/// The same stream with another dirty byte, which stands in the footer too.
pub fn stream_with(dirty: u8) -> Vec<u8> {
    let mut image = with(&stream(), dirty);
    image[10 * 512 + 72] = dirty;
    image
}
