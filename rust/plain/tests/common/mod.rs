//! Small images and texts for the tests.

pub fn put32(image: &mut [u8], at: usize, value: u32) {
    image[at..at + 4].copy_from_slice(&value.to_le_bytes());
}

pub fn put64(image: &mut [u8], at: usize, value: u64) {
    image[at..at + 8].copy_from_slice(&value.to_le_bytes());
}

/// A KDMV image of `sectors` file sectors with its directory at sector 1 and one table at sector 2, all absent. An entry of 1
/// is zeros: it has version 2 and flag 0x4.
pub fn kdmv(capacity: u64, grain_size: u64, sectors: usize) -> Vec<u8> {
    let mut image = vec![0; sectors * 512];
    image[..4].copy_from_slice(b"KDMV");
    put32(&mut image, 4, 2);
    put32(&mut image, 8, 5);
    put64(&mut image, 12, capacity);
    put64(&mut image, 20, grain_size);
    put32(&mut image, 44, 512);
    put64(&mut image, 56, 1);
    image[73..77].copy_from_slice(b"\n \r\n");
    if sectors > 1 {
        put32(&mut image, 512, 2);
    }
    image
}

/// Sets a KDMV grain's entry in the table at sector 2.
pub fn set(image: &mut [u8], grain: usize, entry: u32) {
    put32(image, 2 * 512 + grain * 4, entry);
}
