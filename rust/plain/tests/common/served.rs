//! What an image serves.

use plain::{header, lookup, read, ABSENT, STORED};

/// Kind and bytes of a sector: 512 for a stored one, the payload for a packed one, none otherwise.
pub type Sector<'a> = (u64, &'a [u8]);

/// Every sector below capacity.
pub fn served(image: &[u8]) -> Vec<Sector<'_>> {
    if image.starts_with(b"COWD") {
        return by_entries(image);
    }
    let mut sectors = Vec::new();
    for sector in 0..header(image).capacity {
        let found = lookup(image, sector);
        assert_eq!(found.number, 0, "{sector}");
        let part = read(image, sector);
        let bytes = &image[part.at as usize..][..part.length as usize];
        sectors.push((found.kind, bytes));
    }
    sectors
}

/// Every sector of an accepted COWD image, which no call serves any more: by document 01's entry table.
fn by_entries(image: &[u8]) -> Vec<Sector<'_>> {
    let number = |at: usize| u32::from_le_bytes(image[at..at + 4].try_into().unwrap()) as usize;
    let (capacity, grain_size, directory) = (number(12), number(16), number(20));
    let serve = |sector| {
        let grain = sector / grain_size;
        let table = number(directory * 512 + grain / 4096 * 4);
        let entry = match table {
            0 => 0,
            _ => number(table * 512 + grain % 4096 * 4),
        };
        match entry {
            0 => (ABSENT, &image[..0]),
            _ => (STORED, &image[(entry + sector % grain_size) * 512..][..512]),
        }
    };
    (0..capacity).map(serve).collect()
}
