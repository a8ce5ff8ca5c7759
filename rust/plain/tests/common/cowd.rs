//! COWD images for the tests.

use super::common::put32;

/// A COWD image: directory at sector 4, one table at sector 5, all absent.
pub fn cowd(capacity: u32, grain_size: u32, count: u32, sectors: usize) -> Vec<u8> {
    let mut image = vec![0; sectors * 512];
    image[..4].copy_from_slice(b"COWD");
    put32(&mut image, 4, 1);
    put32(&mut image, 12, capacity);
    put32(&mut image, 16, grain_size);
    put32(&mut image, 20, 4);
    put32(&mut image, 24, count);
    put32(&mut image, 4 * 512, 5);
    image
}
