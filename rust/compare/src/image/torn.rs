//! Images with two directories whose tables differ, for mending.

use super::damage::{damage, meet};
use super::edges::place;
use super::{build, put, Area, Built, Field, Plan, Shape, What};
use crate::rng::Rng;

/// An image with two directories, one of which, or both, is not as it was built.
pub fn torn(rng: &mut Rng) -> Built {
    let mut built = doubled(rng);
    tear(rng, &mut built);
    if rng.one_in(8) {
        let which = rng.any();
        damage(rng, &mut built, which);
    }
    built
}

/// A sound image with two directories.
fn doubled(rng: &mut Rng) -> Built {
    let packed = rng.one_in(3);
    let plan = Plan {
        packed: Some(packed),
        size: Some(size(rng)),
        footer: packed && rng.one_in(2),
        redundant: true,
        most_sectors: rng.pick(&[20, 60, 60, 130]),
        ..Plan::default()
    };
    let shape = Shape::choose(rng, plan);
    build(rng, shape)
}

/// A few grains, about a table or two of them, or directories of two sectors.
fn size(rng: &mut Rng) -> (u64, u64) {
    let grain_size = 8 << rng.pick(&[0, 0, 0, 1, 2, 8]);
    let table = 512 * grain_size;
    let capacity = match rng.below(6) {
        0 => table + rng.pick(&[0, 1, grain_size]),
        1 => rng.within(1, 3 * table),
        2 => 128 * table + rng.below(2),
        _ => rng.within(1, 40 * grain_size),
    };
    (capacity, grain_size)
}

fn tear(rng: &mut Rng, built: &mut Built) {
    let side = rng.index(2);
    match rng.below(16) {
        0..=5 => entries(rng, built, side),
        6 => {
            entries(rng, built, 0);
            entries(rng, built, 1);
        }
        7 => lost(rng, built, side),
        8 | 9 => exchanged(rng, built, side),
        10 => elsewhere(rng, built, side),
        11 => directory(rng, built, side),
        12 | 13 => {
            entries(rng, built, side);
            meet(rng, built);
        }
        14 if built.shape.footer => on_last(built),
        _ => on_table(rng, built, side),
    }
}

/// A side's directory, and its table of a directory entry.
const DIRECTORIES: [What; 2] = [What::Directory, What::Redundant];
const TABLES: [fn(u64) -> What; 2] = [What::Table, What::Copy];

/// Some entries in use of one side's tables.
fn entries(rng: &mut Rng, built: &mut Built, side: usize) {
    let indexes: Vec<u64> = built.shape.tables.keys().copied().collect();
    if indexes.is_empty() {
        return directory(rng, built, side);
    }
    for _ in 0..rng.pick(&[1, 1, 2, 6]) {
        let index = rng.pick(&indexes);
        let field = Field {
            at: first(built, TABLES[side](index)) * 512 + cell(rng, built, index) as usize * 4,
            size: 4,
        };
        let value = number(rng, built, field);
        built.put(field, value);
    }
}

fn first(built: &Built, what: What) -> usize {
    built.those(|one| one == what)[0].first as usize
}

/// An entry in use of a table: its first, its last, one that is not absent, or any.
fn cell(rng: &mut Rng, built: &Built, index: u64) -> u64 {
    let grains = built.shape.grains_of(index);
    let mut cells = vec![0, grains - 1, rng.below(grains)];
    cells.extend(built.shape.tables[&index].keys().take(3));
    rng.pick(&cells)
}

/// Another number for an entry: of its own meaning, another grain's, about F, or alike up to a zero byte.
fn number(rng: &mut Rng, built: &Built, field: Field) -> u64 {
    let now = built.get(field);
    let sectors = built.shape.grain_size;
    let grains = built.those(|what| matches!(what, What::Grain(_)));
    match rng.below(8) {
        0 => 0,
        1 => 1,
        2 | 3 => behind_a_zero_byte(rng, now),
        4 => now ^ 1 << rng.below(32),
        5 if !grains.is_empty() => grains[rng.index(grains.len())].first,
        6 => (built.sectors() + rng.below(2)).saturating_sub(sectors),
        _ => place(rng, built, sectors, 4),
    }
}

/// A byte behind the entry's first zero byte changed; its last byte where there is none.
fn behind_a_zero_byte(rng: &mut Rng, now: u64) -> u64 {
    let bytes = now.to_le_bytes();
    let zero = bytes[..3].iter().position(|byte| *byte == 0).unwrap_or(2);
    now ^ 1 << (8 * rng.within(zero as u64 + 1, 3) + rng.below(8))
}

/// One sector of a table, or one table, is all zeros, ones or entries of 1.
fn lost(rng: &mut Rng, built: &mut Built, side: usize) {
    let mut tables =
        built.those(|what| matches!((side, what), (0, What::Table(_)) | (1, What::Copy(_))));
    if tables.is_empty() {
        return directory(rng, built, side);
    }
    let table = tables.swap_remove(rng.index(tables.len()));
    let from = table.first as usize * 512;
    let sectors = rng.pick(&[1, 4]);
    let value = rng.pick(&[0, 0, 1, u64::from(u32::MAX)]);
    for at in (from..from + sectors * 512).step_by(4) {
        put(&mut built.bytes, at, 4, value);
    }
}

fn grains(built: &Built) -> Vec<Area> {
    built.those(|what| matches!(what, What::Grain(_)))
}

/// Two grains change places on one side, or one of them has the other's.
fn exchanged(rng: &mut Rng, built: &mut Built, side: usize) {
    let grains = grains(built);
    if grains.len() < 2 {
        return entries(rng, built, side);
    }
    let [one, other] = [(); 2].map(|()| &grains[rng.index(grains.len())]);
    built.put(one.pointers[side], other.first);
    if rng.one_in(2) {
        built.put(other.pointers[side], one.first);
    }
}

/// A grain stands at the end of the file once more, as one side says.
fn elsewhere(rng: &mut Rng, built: &mut Built, side: usize) {
    let grains = grains(built);
    if grains.is_empty() || built.shape.footer {
        return entries(rng, built, side);
    }
    let grain = &grains[rng.index(grains.len())];
    let f = built.sectors();
    built.bytes.truncate(f as usize * 512);
    let from = grain.first as usize * 512;
    built
        .bytes
        .extend_from_within(from..from + grain.sectors as usize * 512);
    built.put(grain.pointers[side], f);
}

/// An entry of one directory: absent, zeros, a table of its own, or one that another entry has.
fn directory(rng: &mut Rng, built: &mut Built, side: usize) {
    let mut indexes = vec![0, built.shape.entries() - 1];
    indexes.extend(built.shape.tables.keys());
    let at = first(built, DIRECTORIES[side]) * 512 + rng.pick(&indexes) as usize * 4;
    let tables = built.those(|what| matches!(what, What::Table(_) | What::Copy(_)));
    let mut values = vec![0, 1, 1, 2];
    values.extend(tables.iter().map(|table| table.first));
    let value = rng.pick(&values);
    built.put(Field { at, size: 4 }, value);
}

/// A grain in a table, with its marker there where it is packed; as both sides say, or one.
fn on_table(rng: &mut Rng, built: &mut Built, side: usize) {
    let grains = grains(built);
    let tables = built.those(|what| matches!(what, What::Table(_) | What::Copy(_)));
    if grains.is_empty() {
        return entries(rng, built, side);
    }
    let grain = &grains[rng.index(grains.len())];
    let table = &tables[rng.index(tables.len())];
    let to = table.first + rng.pick(&[0, 0, 1, 3]);
    if let (What::Grain(number), true) = (grain.what, built.shape.packed) {
        let at = to as usize * 512;
        put(&mut built.bytes, at, 8, number * built.shape.grain_size);
        put(&mut built.bytes, at + 8, 4, rng.pick(&[1, 500]));
    }
    if rng.one_in(2) {
        built.put(grain.pointers[1 - side], to);
    }
    built.put(grain.pointers[side], to);
}

/// A descriptor on the file's last sector, as header and footer say.
fn on_last(built: &mut Built) {
    let last = built.sectors() - 1;
    for start in built.headers() {
        for (at, value) in [(28, last), (36, 1)] {
            let at = start + at;
            built.put(Field { at, size: 8 }, value);
        }
    }
}

/// A table of the other side on both directories, whose entries in it would come to name two empty tables: the image would be
/// accepted after the change. Now and then it stands beside them, or does not reach them.
pub fn on_directories(rng: &mut Rng) -> Vec<u8> {
    let (version, flags) = rng.pick(&[(1, 0), (2, 0), (2, 4), (3, 4)]);
    let grain_size = 8 << rng.pick(&[0, 0, 1]);
    // Directories at 4 and 5, in either order, and the good side's table at 12; the empty ones have room for grains.
    let good = rng.within(4, 5);
    let other = 9 - good;
    let table = rng.pick(&[4, 4, 3, 2, 8]);
    let empty = [16, 16 + grain_size];
    let mut sides = [other, good];
    rng.shuffle(&mut sides);
    let grains = rng.pick(&[128, 129, 257, 385, 386, 512]);
    let mut image = vec![0; 512 * (16 + 2 * grain_size) as usize];
    image[..4].copy_from_slice(b"KDMV");
    for (at, size, value) in [
        (4, 4, version),
        (8, 4, flags),
        (12, 8, grains * grain_size),
        (20, 8, grain_size),
        (44, 4, 512),
        (48, 8, sides[0]),
        (56, 8, sides[1]),
        (good * 512, 4, 12),
        (other * 512, 4, table),
    ] {
        put(&mut image, at as usize, size, value);
    }
    for (directory, named) in [good, other].into_iter().zip(empty) {
        let entry = 128 * (directory - table.min(4));
        put(&mut image, (12 * 512 + entry * 4) as usize, 4, named);
    }
    image
}

#[cfg(test)]
mod tests {
    use super::{doubled, entries};
    use crate::rng::Rng;
    use std::collections::BTreeSet;

    #[test]
    fn a_torn_side_is_mended_from_the_other() {
        let mut counts = BTreeSet::new();
        for case in 0..1000 {
            let rng = &mut Rng::new(14, case);
            let sound = doubled(rng);
            if sound.shape.tables.is_empty() {
                continue;
            }
            let side = rng.index(2);
            let mut built = sound.clone();
            entries(rng, &mut built, side);
            let answer = plain::mend(&mut built.bytes, 1 - side as u64, &mut [0; 3 * 6]);
            assert_eq!(answer.number, 0, "{case}");
            assert!(built.bytes == sound.bytes, "{case}");
            counts.insert(answer.count);
        }
        assert!(counts.into_iter().eq(0..=6));
    }
}
