//! The two tables of each directory entry, and in what they differ: of images that passed 8 and have two directories.

use crate::frames::areas;
use crate::ones::{directories, number, one_is_zero};

/// Grain, old entry and new entry.
pub type Change = [u64; 3];

/// What two directory entries of one place are that are not alike, the lower first: 0 absent, 1 zeros, which an entry of 1 may
/// mean, 2 a table.
pub fn other_places(image: &[u8], one_is_zero: bool) -> Vec<[u64; 2]> {
    let kind = |entry: &u64| match entry {
        0 => 0,
        1 if one_is_zero => 1,
        _ => 2,
    };
    let [primary, redundant] = directories(image);
    let pairs = primary.iter().map(kind).zip(redundant.iter().map(kind));
    let apart = pairs.filter(|(one, other)| one != other);
    apart
        .map(|(one, other)| [one.min(other), one.max(other)])
        .collect()
}

/// Whether two of header, directories, tables and footer meet, and not descriptor or last sector.
pub fn frame_meets(image: &[u8]) -> bool {
    let words = areas(image);
    let frame = words.chunks(3).filter(|area| ![2, 8].contains(&area[0]));
    let mut frame: Vec<(u64, u64)> = frame.map(|area| (area[1], area[2])).collect();
    frame.sort_unstable();
    frame.windows(2).any(|two| two[0].0 + two[0].1 > two[1].0)
}

/// The tables that both directories name at one entry: its number, the good side's table and the other's.
pub fn pairs(image: &[u8], good: u64) -> Vec<[u64; 3]> {
    let mut sides = directories(image);
    if good != 0 {
        sides.reverse();
    }
    let none = if one_is_zero(image) { 1 } else { 0 };
    let entries = (0..).zip(sides[0].iter().zip(&sides[1]));
    let both = entries.filter(|(_, (good, other))| **good > none && **other > none);
    both.map(|(index, (good, other))| [index, *good, *other])
        .collect()
}

/// The entries in use of a directory entry's table.
pub fn in_use(image: &[u8], index: u64) -> u64 {
    let head = plain::header(image);
    let grains = (head.capacity - 1) / head.grain_size + 1;
    (grains - 512 * index).min(512)
}

pub fn entry(image: &[u8], table: u64, index: u64) -> u64 {
    number(image, table * 512 + index * 4, 4)
}

/// What the list of changes has to hold.
pub fn differing(image: &[u8], good: u64) -> Vec<Change> {
    let mut changes = Vec::new();
    for [index, good, other] in pairs(image, good) {
        for cell in 0..in_use(image, index) {
            let [old, new] = [other, good].map(|table| entry(image, table, cell));
            if old != new {
                changes.push([512 * index + cell, old, new]);
            }
        }
    }
    changes
}

/// The image with those changes, wherever its areas are.
pub fn changed(image: &[u8], good: u64) -> Vec<u8> {
    let mut changed = image.to_vec();
    for [index, good, other] in pairs(image, good) {
        let bytes = 4 * in_use(image, index) as usize;
        let [from, to] = [good, other].map(|table| table as usize * 512);
        changed[to..to + bytes].copy_from_slice(&image[from..from + bytes]);
    }
    changed
}

/// Whether two tables differ in an entry that is not in use.
pub fn unused_differ(image: &[u8], good: u64) -> bool {
    pairs(image, good).iter().any(|[index, good, other]| {
        let mut unused = in_use(image, *index)..512;
        unused.any(|cell| entry(image, *good, cell) != entry(image, *other, cell))
    })
}

/// Whether a comparison that stops at a zero byte takes two entries for one.
pub fn alike_as_text(old: u64, new: u64) -> bool {
    let [old, new] = [old, new].map(|entry| entry.to_le_bytes());
    let end = old.iter().position(|byte| *byte == 0).unwrap_or(4);
    end < 4 && old[..=end] == new[..=end]
}

/// Whether the changes ascend in the file too.
pub fn ascending(image: &[u8], good: u64) -> bool {
    let pairs = pairs(image, good);
    let tables = pairs.iter().map(|pair| pair[2]);
    tables
        .clone()
        .zip(tables.skip(1))
        .all(|(one, next)| one < next)
}
