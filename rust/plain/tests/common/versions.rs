//! Headers by what an entry of 1 means in them.

/// The version and the flags' first byte of headers where 1 is a sector, and of those where it is zeros.
pub const SECTOR: [[u8; 2]; 3] = [[1, 1], [2, 1], [3, 1]];
pub const ZEROS: [[u8; 2]; 2] = [[2, 5], [3, 5]];

/// An image with another version and other flags.
pub fn of(image: &[u8], [version, flags]: [u8; 2]) -> Vec<u8> {
    let mut image = image.to_vec();
    (image[4], image[8]) = (version, flags);
    image
}
