//! Numbers in bytes, sectors and rounding.

/// Bytes of a sector.
pub const SECTOR: u64 = 512;

/// The little-endian number of `size` bytes (at most 8) at `at`. The caller has made sure that they are there.
pub fn number(bytes: &[u8], at: u64, size: usize) -> u64 {
    let at = at as usize;
    let mut value = 0;
    for byte in bytes[at..at + size].iter().rev() {
        value = value * 256 + u64::from(*byte);
    }
    value
}

/// Writes the little-endian u32 at `at`.
pub fn put32(bytes: &mut [u8], at: u64, value: u64) {
    bytes[at as usize..at as usize + 4].copy_from_slice(&(value as u32).to_le_bytes());
}

/// Writes the little-endian u64 at `at`.
pub fn put64(bytes: &mut [u8], at: u64, value: u64) {
    bytes[at as usize..at as usize + 8].copy_from_slice(&value.to_le_bytes());
}

/// F: the file's whole sectors.
pub fn whole_sectors(image: &[u8]) -> u64 {
    image.len() as u64 / SECTOR
}

/// One sector of an image, which must lie below F.
pub fn sector(image: &[u8], number: u64) -> &[u8] {
    let at = (number * SECTOR) as usize;
    &image[at..at + SECTOR as usize]
}

/// a / b, rounded up.
pub fn up(a: u64, b: u64) -> u64 {
    a / b + u64::from(a % b != 0)
}

/// Whether an area of `sectors` sectors from `first` on runs past F. Counted exactly: no sum of two u64 wraps in a u128.
pub fn past(first: u64, sectors: u64, f: u64) -> bool {
    u128::from(first) + u128::from(sectors) > u128::from(f)
}

#[cfg(test)]
mod tests {
    use super::*;

    #[test]
    fn little_endian() {
        assert_eq!(number(&[9, 1, 2, 0, 0], 1, 4), 513);
        assert_eq!(number(&[255; 8], 0, 8), u64::MAX);
    }

    #[test]
    fn a_sum_that_wraps_is_past() {
        assert!(past(u64::MAX, 1, 10));
        assert!(past(u64::MAX - 3, 8, 10));
        assert!(past(7, 4, 10));
        assert!(!past(6, 4, 10));
    }

    #[test]
    fn rounding() {
        assert_eq!((up(0, 8), up(1, 8), up(8, 8), up(9, 8)), (0, 1, 1, 2));
    }
}
