//! Parts of images that not every test needs.

use super::common::{put32, put64};

/// Sets the first entries of the directory or table at a sector.
pub fn put_entries(image: &mut [u8], at: usize, entries: &[u32]) {
    for (index, entry) in entries.iter().enumerate() {
        put32(image, at * 512 + index * 4, *entry);
    }
}

/// Makes an image packed, with markers; its directory stays where sector 0 says.
pub fn pack(image: &mut [u8]) {
    put32(image, 8, 0x30005);
    image[77] = 1;
}

/// Gives a packed image a footer in its last two sectors, which names the directory at sector `directory`.
pub fn put_footer(image: &mut [u8], directory: u64) {
    let footer = image.len() - 1024;
    put64(image, 56, u64::MAX);
    image.copy_within(..512, footer);
    put64(image, footer + 56, directory);
}
