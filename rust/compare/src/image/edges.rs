//! Numbers at both sides of the edges of document 01's rules.

use super::{Area, Built, Field};
use crate::rng::Rng;

/// A place for an area of `sectors`: about F, about the other areas, or where a sum wraps.
pub fn place(rng: &mut Rng, built: &Built, sectors: u64, size: usize) -> u64 {
    let f = built.sectors();
    let most = most(size);
    let other: &Area = &built.areas[rng.index(built.areas.len())];
    let edges = [
        // The file's end.
        f,
        f.wrapping_sub(1),
        f.wrapping_sub(2),
        f.wrapping_sub(sectors),
        f.wrapping_sub(sectors).wrapping_add(1),
        f.wrapping_sub(sectors).wrapping_sub(1),
        // Entries of their own meaning, and the header's sectors.
        0,
        1,
        2,
        3,
        4,
        // Sums that wrap to 0 and to a little more.
        most,
        most - 1,
        most.wrapping_sub(sectors),
        most.wrapping_sub(sectors).wrapping_add(1),
        most.wrapping_sub(sectors).wrapping_add(2),
        rng.any(),
        // Both sides of both edges of another area.
        other.first,
        other.first.wrapping_sub(sectors),
        other.first.wrapping_sub(sectors).wrapping_add(1),
        other.first + other.sectors - 1,
        other.first + other.sectors,
        rng.below(f.max(1)),
    ];
    rng.pick(&edges) & most
}

/// The largest number of a field.
pub fn most(size: usize) -> u64 {
    u64::MAX >> (64 - 8 * size as u32)
}

/// A header's field and numbers for it.
pub fn header_field(rng: &mut Rng, built: &Built) -> (Field, u64) {
    if built.shape.cowd {
        cowd_field(rng, built)
    } else {
        kdmv_field(rng, built)
    }
}

fn kdmv_field(rng: &mut Rng, built: &Built) -> (Field, u64) {
    let directory = built.shape.entries() * 4 / 512 + 1;
    match rng.below(21) {
        0 => (field(8, 4), flags(rng, built)),
        1 => (field(12, 8), capacity(rng, built)),
        2 => (field(20, 8), grain_size(rng)),
        3 => (field(28, 8), place(rng, built, built.shape.descriptor, 8)),
        4 => (field(36, 8), descriptor_sectors(rng, built)),
        5 => (field(48, 8), place(rng, built, directory, 8)),
        6 | 7 => (field(56, 8), place(rng, built, directory, 8)),
        // Flag 0x4 alone, as another version does, changes what an entry of 1 is.
        8..=10 => (field(8, 4), built.shape.flags ^ 0x4),
        11 => (field(72, 1), dirty(rng, false)),
        _ => fixed_field(rng),
    }
}

/// A field whose edges are the same in every image.
fn fixed_field(rng: &mut Rng) -> (Field, u64) {
    match rng.below(9) {
        0 => (
            field(0, 4),
            rng.pick(&[0, 0x4457_4f43, 0x564d_444c, 0x554d_444b]),
        ),
        1 | 2 => (
            field(4, 4),
            rng.pick(&[0, 1, 2, 3, 4, 0xffff_ffff, 0x0100_0000, 257]),
        ),
        3 => (
            field(44, 4),
            rng.pick(&[0, 511, 512, 513, 1024, 4096, 0x0200_0001, 0x1_0000]),
        ),
        // Overhead and padding are not judged.
        4 => (
            rng.pick(&[field(64, 8), field(79, 1), field(511, 1), field(200, 8)]),
            rng.any(),
        ),
        5..=7 => (
            field(73 + rng.index(4), 1),
            rng.pick(&[0, 0x0a, 0x0d, 0x20]),
        ),
        _ => (field(77, 2), rng.pick(&[0, 1, 2, 256, 257, 0xffff])),
    }
}

/// The descriptor's sectors: up to F, past it, or where a sum wraps.
fn descriptor_sectors(rng: &mut Rng, built: &Built) -> u64 {
    let f = built.sectors();
    let at = built.get(field(28, 8));
    let edges = [0, 1, f, f.wrapping_sub(at), u64::MAX, rng.any()];
    let wraps = [0_u64.wrapping_sub(at), 1_u64.wrapping_sub(at)];
    match rng.below(4) {
        0 => rng.pick(&wraps),
        1 => f.wrapping_sub(at).wrapping_add(1),
        _ => rng.pick(&edges),
    }
}

/// A dirty number that is not 0. Of COWD's four bytes any may be the only one that is not.
pub fn dirty(rng: &mut Rng, cowd: bool) -> u64 {
    let byte = rng.pick(&[1, 2, 255]);
    if cowd {
        byte << rng.pick(&[0, 8, 16, 24])
    } else {
        byte
    }
}

fn cowd_field(rng: &mut Rng, built: &Built) -> (Field, u64) {
    let n = built.shape.entries();
    let at = built.get(field(20, 4));
    let left = built.sectors().saturating_sub(at) * 128;
    match rng.below(9) {
        0 => (field(0, 4), rng.pick(&[0, 0x564d_444b, 0x4457_4f42])),
        1 => (field(4, 4), rng.pick(&[0, 1, 2, 3, 0xffff_ffff, 257])),
        2 => (field(8, 4), rng.any()),
        3 => (field(12, 4), capacity(rng, built)),
        4 => (field(16, 4), grain_size(rng)),
        5 => (
            field(20, 4),
            place(rng, built, (built.shape.stored_entries + 127) / 128, 4),
        ),
        // The count gives the directory's area: it may end at F and not past it.
        6 => (
            field(24, 4),
            rng.pick(&[0, n - 1, n, n + 1, left, left.wrapping_add(1), most(4)]),
        ),
        7 => (field(1648, 4), dirty(rng, true)),
        _ => (field(28 + rng.index(2020), 1), rng.any()),
    }
}

fn field(at: usize, size: usize) -> Field {
    Field { at, size }
}

/// Every combination of the known flags, or one more bit.
fn flags(rng: &mut Rng, built: &Built) -> u64 {
    let mut flags = built.shape.flags;
    if rng.one_in(2) {
        // Beside the known bits, or any.
        let any = rng.below(32);
        return flags ^ (1 << rng.pick(&[3, 15, 18, 31, any, any]));
    }
    for bit in [0x1, 0x2, 0x4, 0x10000, 0x20000] {
        if rng.one_in(2) {
            flags ^= bit;
        }
    }
    flags
}

fn capacity(rng: &mut Rng, built: &Built) -> u64 {
    let now = built.shape.capacity;
    let size = built.shape.grain_size;
    let table = built.shape.per_table() * size;
    let tables = built.shape.entries() * table;
    let sector = 128 * table;
    rng.pick(&[
        0,
        1,
        1 << 31,
        (1 << 31) - 1,
        (1 << 31) + 1,
        1 << 32,
        (1 << 32) + now,
        1 << 63,
        u64::MAX,
        now - 1,
        now + 1,
        now.saturating_sub(size),
        now + size,
        table,
        table + 1,
        tables,
        tables + 1,
        sector,
        sector + 1,
    ])
}

fn grain_size(rng: &mut Rng) -> u64 {
    match rng.below(3) {
        0 => 1 << rng.below(13),
        1 => rng.pick(&[0, 1, 2, 4, 8, 2048, 4096]),
        _ => rng.pick(&[
            3,
            7,
            9,
            12,
            24,
            2047,
            2049,
            (1 << 32) + 8,
            1 << 63,
            u64::MAX,
        ]),
    }
}
