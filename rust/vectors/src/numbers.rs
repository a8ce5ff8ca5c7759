//! Answers as the program `cases` prints them: numbers, with a space after each.

use plain::{Described, Extent, Found, Located, Steps};
use std::fmt::Write;

/// A line's beginning and its numbers.
pub fn line(start: &str, numbers: &[u64]) -> String {
    let mut line = start.to_string();
    for number in numbers {
        let _ = write!(line, "{number} ");
    }
    line
}

pub fn located(a: Located) -> [u64; 7] {
    [
        a.number, a.layer, a.place, a.kind, a.sector, a.size, a.offset,
    ]
}

pub fn stepped(s: Steps) -> [u64; 12] {
    [
        s.number,
        s.place,
        s.one_is_zero,
        s.grain,
        s.directory_at,
        s.directory_entry,
        s.table_at,
        s.table_entry,
        s.kind,
        s.sector,
        s.size,
        s.offset,
    ]
}

pub fn described(d: Described) -> [u64; 8] {
    [
        d.number,
        d.place,
        d.extents,
        d.version,
        d.cid,
        d.parent_cid,
        d.type_at,
        d.type_length,
    ]
}

pub fn extent(e: &Extent) -> [u64; 7] {
    [
        e.first,
        e.sectors,
        e.access,
        e.kind,
        e.name_at,
        e.name_length,
        e.offset,
    ]
}

pub fn found(f: Found) -> [u64; 3] {
    [f.number, f.place, f.extent]
}

/// The list of four that a text's extents are handed over in, as it is before: each number is 9.
const HELD: [Extent; 4] = [Extent {
    first: 9,
    sectors: 9,
    access: 9,
    kind: 9,
    name_at: 9,
    name_length: 9,
    offset: 9,
}; 4];

/// A text's answer, and the list of four after it.
pub fn handed_over(text: &[u8]) -> (Described, [Extent; 4]) {
    let mut list = HELD;
    let (described, extents) = plain::descriptor(text, list.len());
    list[..extents.len()].copy_from_slice(&extents);
    (described, list)
}

/// The bytes as digits from 1 to 256 of a number in base 257, by a prime.
pub fn digest(bytes: &[u8]) -> u64 {
    let step = |sum: u64, byte: &u8| (257 * sum + u64::from(*byte) + 1) % 36_028_797_018_963_913;
    bytes.iter().fold(0, step)
}
