//! A small image.

/// Capacity 200, grain size 8, descriptor at 6, grain 2 stored at sector 8, grain 3 zero: version 2 and flag 0x4.
pub fn image() -> Vec<u8> {
    let mut image = vec![0; 16 * 512];
    image[..4].copy_from_slice(b"KDMV");
    image[4] = 2;
    image[8] = 4;
    image[12] = 200;
    image[20] = 8;
    image[28] = 6;
    image[36] = 2;
    image[45] = 2;
    image[56] = 1;
    image[512] = 2;
    image[2 * 512 + 8] = 8;
    image[2 * 512 + 12] = 1;
    image[8 * 512..].fill(7);
    image
}
