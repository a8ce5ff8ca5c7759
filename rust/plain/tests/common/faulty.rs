//! Two accepted images, and a refused one for each number of the check.

use super::common::{kdmv, put32, put64, set};
use super::parts::{pack, put_entries, put_footer};

/// Five grains, the last of which capacity ends in: stored, zero, absent, stored, stored.
pub fn mixed() -> Vec<u8> {
    let mut image = kdmv(33, 8, 30);
    put_entries(&mut image, 2, &[6, 1, 0, 14, 22]);
    image
}

/// A stream of four grains, with its directory at the end: packed, zero, packed, absent.
pub fn stream() -> Vec<u8> {
    let mut image = kdmv(25, 8, 12);
    pack(&mut image);
    put_entries(&mut image, 2, &[6, 1, 9, 0]);
    put32(&mut image, 6 * 512 + 8, 513);
    put64(&mut image, 9 * 512, 16);
    put32(&mut image, 9 * 512 + 8, 1);
    put_footer(&mut image, 1);
    image
}

/// A refused image for each number from 1 to 12; 8 by a primary table, 9 and 10 at grains 3 and 2.
pub fn faulty() -> Vec<Vec<u8>> {
    let mut images = vec![b"KDM".to_vec(), b"KDMW".to_vec()];
    for (at, value) in [(4, 4), (73, 0), (8, 9), (44, 1)] {
        let mut image = mixed();
        image[at] = value;
        images.push(image);
    }
    let mut footer = stream();
    footer[11 * 512] = 1;
    images.push(footer);
    let mut frame = mixed();
    put_entries(&mut frame, 1, &[27]);
    images.push(frame);
    let mut past = mixed();
    put_entries(&mut past, 2, &[6, 1, 0, 23, 30]);
    images.push(past);
    let mut marker = stream();
    put64(&mut marker, 9 * 512, 17);
    images.push(marker);
    let mut copies = kdmv(33, 8, 40);
    put64(&mut copies, 48, 10);
    images.push(copies);
    let mut shared = mixed();
    set(&mut shared, 3, 13);
    images.push(shared);
    images
}
