//! Builds a sound image: its areas in any order, with gaps and unused entries that hold anything.

use super::shape::{up, Cell};
use super::{put, Area, Built, Field, Shape, What};
use crate::rng::Rng;

pub fn build(rng: &mut Rng, shape: Shape) -> Built {
    let mut areas = wanted(&shape);
    let end = place(rng, &shape, &mut areas);
    let mut bytes = vec![0; end as usize * 512];
    rng.fill(&mut bytes);
    let mut built = Built {
        bytes,
        shape,
        areas,
        asked: Vec::new(),
    };
    if rng.one_in(2) {
        clean(&mut built);
    }
    write_tables(&mut built);
    write_grains(rng, &mut built);
    write_header(&mut built);
    if built.shape.footer {
        write_footer(&mut built);
    } else if rng.one_in(3) {
        // Bytes past 512 x F.
        let mut rest = vec![0; rng.within(1, 511) as usize];
        rng.fill(&mut rest);
        built.bytes.extend(rest);
    }
    ask(rng, &mut built);
    built
}

/// The areas between header and footer, not placed yet.
fn wanted(shape: &Shape) -> Vec<Area> {
    let directory = up(shape.stored_entries * 4, 512);
    let table = shape.per_table() * 4 / 512;
    let mut areas = Vec::new();
    let mut add = |what, sectors| {
        areas.push(Area {
            what,
            first: 0,
            sectors,
            pointers: Vec::new(),
        })
    };
    if shape.descriptor != 0 {
        add(What::Descriptor, shape.descriptor);
    }
    add(What::Directory, directory);
    if shape.redundant {
        add(What::Redundant, directory);
    }
    for (index, cells) in &shape.tables {
        add(What::Table(*index), table);
        if shape.redundant {
            add(What::Copy(*index), table);
        }
        for (cell, kind) in cells {
            let grain = What::Grain(index * shape.per_table() + cell);
            match kind {
                Cell::Zero => {}
                Cell::Stored => add(grain, shape.grain_size),
                Cell::Packed(size) => add(grain, up(12 + size, 512)),
            }
        }
    }
    areas
}

/// Gives each area its sectors; returns F.
fn place(rng: &mut Rng, shape: &Shape, areas: &mut Vec<Area>) -> u64 {
    rng.shuffle(areas);
    let header = if shape.cowd { 4 } else { 1 };
    let gaps = rng.pick(&[1, 1, 3, 9]);
    let mut next = header;
    for area in areas.iter_mut() {
        next += rng.below(gaps);
        let named = matches!(area.what, What::Table(_) | What::Copy(_) | What::Grain(_));
        // Where an entry of 1 means zeros, no entry can name sector 1.
        if next == 1 && named && shape.one_is_zero() {
            next = 2;
        }
        area.first = next;
        next += area.sectors;
    }
    next += rng.below(gaps);
    let mut fixed = vec![(What::Header, 0, header)];
    if shape.footer {
        // F is at least 4 with a footer: a header and a directory stand before it.
        fixed.push((What::Footer, next, 1));
        fixed.push((What::Last, next + 1, 1));
        next += 2;
    }
    for (what, first, sectors) in fixed {
        let pointers = Vec::new();
        areas.push(Area {
            what,
            first,
            sectors,
            pointers,
        });
    }
    next
}

/// Zeros in header, directories and tables, as most tools leave them.
fn clean(built: &mut Built) {
    for area in built.those(|what| !matches!(what, What::Grain(_) | What::Descriptor)) {
        let from = area.first as usize * 512;
        built.bytes[from..from + area.sectors as usize * 512].fill(0);
    }
}

fn first_of(built: &Built, what: What) -> Option<u64> {
    let found = built.areas.iter().find(|area| area.what == what);
    found.map(|area| area.first)
}

/// Writes the place of an area into a field and remembers that it stands there.
fn point(built: &mut Built, what: What, at: u64, size: usize) {
    let field = Field {
        at: at as usize,
        size,
    };
    let found = built.areas.iter_mut().find(|area| area.what == what);
    if let Some(area) = found {
        area.pointers.push(field);
        let first = area.first;
        built.put(field, first);
    }
}

/// Both directories and all tables.
fn write_tables(built: &mut Built) {
    let shape = built.shape.clone();
    for (directory, copy) in [(What::Directory, false), (What::Redundant, true)] {
        let at = match first_of(built, directory) {
            Some(first) => first * 512,
            None => continue,
        };
        for index in 0..shape.entries() {
            let one = shape.is_one(index).into();
            put(&mut built.bytes, (at + index * 4) as usize, 4, one);
        }
        for (index, cells) in &shape.tables {
            let what = if copy {
                What::Copy(*index)
            } else {
                What::Table(*index)
            };
            point(built, what, at + index * 4, 4);
            let table = first_of(built, what).unwrap_or(0) * 512;
            for cell in 0..shape.grains_of(*index) {
                let entry = table + cell * 4;
                match cells.get(&cell) {
                    None => put(&mut built.bytes, entry as usize, 4, 0),
                    Some(Cell::Zero) => put(&mut built.bytes, entry as usize, 4, 1),
                    Some(_) => {
                        let grain = What::Grain(index * shape.per_table() + cell);
                        point(built, grain, entry, 4);
                    }
                }
            }
        }
    }
}

/// Markers of packed grains; some stored grains hold only zeros.
fn write_grains(rng: &mut Rng, built: &mut Built) {
    let shape = built.shape.clone();
    for area in built.those(|what| matches!(what, What::Grain(_))) {
        let grain = match area.what {
            What::Grain(grain) => grain,
            _ => continue,
        };
        let from = area.first as usize * 512;
        if rng.one_in(6) {
            built.bytes[from..from + area.sectors as usize * 512].fill(0);
        }
        let cells = shape.tables.get(&(grain / shape.per_table()));
        let cell = cells.and_then(|cells| cells.get(&(grain % shape.per_table())));
        if let Some(Cell::Packed(size)) = cell {
            put(&mut built.bytes, from, 8, grain * shape.grain_size);
            put(&mut built.bytes, from + 8, 4, *size);
        }
    }
}

fn write_header(built: &mut Built) {
    let shape = built.shape.clone();
    let bytes = &mut built.bytes;
    bytes[..4].copy_from_slice(if shape.cowd { b"COWD" } else { b"KDMV" });
    put(bytes, 4, 4, shape.version);
    put(bytes, 8, 4, shape.flags);
    if shape.cowd {
        put(bytes, 12, 4, shape.capacity);
        put(bytes, 16, 4, shape.grain_size);
        put(bytes, 24, 4, shape.stored_entries);
        put(bytes, 1648, 4, shape.dirty);
        point(built, What::Directory, 20, 4);
        return;
    }
    put(bytes, 12, 8, shape.capacity);
    put(bytes, 20, 8, shape.grain_size);
    put(bytes, 28, 8, 0);
    put(bytes, 36, 8, shape.descriptor);
    put(bytes, 44, 4, 512);
    put(bytes, 48, 8, 0);
    put(bytes, 72, 1, shape.dirty);
    put(bytes, 77, 2, shape.packed.into());
    if shape.flags & 1 != 0 {
        bytes[73..77].copy_from_slice(&[0x0a, 0x20, 0x0d, 0x0a]);
    }
    point(built, What::Descriptor, 28, 8);
    point(built, What::Redundant, 48, 8);
    if shape.footer {
        put(&mut built.bytes, 56, 8, u64::MAX);
    } else {
        point(built, What::Directory, 56, 8);
    }
}

/// The footer is the header with the directory's sector in it.
fn write_footer(built: &mut Built) {
    let at = first_of(built, What::Footer).unwrap_or(0) * 512;
    built.bytes.copy_within(0..512, at as usize);
    point(built, What::Directory, at + 56, 8);
    for (what, field) in [(What::Descriptor, 28), (What::Redundant, 48)] {
        point(built, what, at + field, 8);
    }
    built.bytes[at as usize + 512..].fill(0);
}

/// Sectors at the edges of grains and tables, and where something is stored.
fn ask(rng: &mut Rng, built: &mut Built) {
    let (capacity, size) = (built.shape.capacity, built.shape.grain_size);
    let mut asked = vec![0, size - 1, size, capacity - 1, capacity, u64::MAX];
    let table = built.shape.per_table() * size;
    asked.extend([table - 1, table, rng.below(capacity), rng.any()]);
    for area in &built.areas {
        match area.what {
            What::Grain(grain) => asked.push(grain * size + rng.below(size)),
            What::Table(index) => asked.push(index * table),
            _ => {}
        }
    }
    built.asked = asked;
}
