//! Damage to markers, footers, copies, the file's length, and to bytes that must not matter.

use super::damage::ask_about;
use super::{put, Area, Built, Field, What};
use crate::rng::Rng;

/// Cut and grown files, by bytes and by sectors.
pub fn length(rng: &mut Rng, built: &mut Built) {
    let now = built.bytes.len() as u64;
    let whole = now / 512 * 512;
    let any = rng.below(now + 1);
    let new = rng.pick(&[
        0,
        3,
        4,
        5,
        511,
        512,
        513,
        2047,
        2048,
        2049,
        now.saturating_sub(1),
        now.saturating_sub(512),
        whole,
        whole.saturating_sub(1),
        whole + 1,
        now + 1,
        now + 511,
        now + 512,
        now + 1024,
        any,
    ]);
    let fill = if rng.one_in(2) { 0 } else { rng.any() as u8 };
    built.bytes.resize(new as usize, fill);
}

/// The file ends with some area, or a byte or a sector before its end.
pub fn cut_at_area(rng: &mut Rng, built: &mut Built) {
    let area = &built.areas[rng.index(built.areas.len())];
    let end = (area.first + area.sectors) * 512;
    let new = end.saturating_sub(rng.pick(&[0, 1, 512, 513])) as usize;
    let what = area.what;
    if new < built.bytes.len() {
        built.bytes.truncate(new);
    } else {
        built.bytes.resize(new, 0);
    }
    ask_about(built, what);
}

/// A byte of the footer or of the last sector, or the footer's directory.
pub fn footer(rng: &mut Rng, built: &mut Built) {
    let f = built.sectors() as usize;
    if !built.shape.footer || f < 4 {
        return make_footer(rng, built);
    }
    let footer = (f - 2) * 512;
    match rng.below(5) {
        0 => {
            let at = footer + 56;
            let value = rng.pick(&[u64::MAX, 0, u64::MAX - 1, f as u64, f as u64 - 1]);
            built.put(Field { at, size: 8 }, value);
        }
        1 => {
            let at = footer + 512 + rng.pick(&[0, 1, 255, 510, 511]);
            built.bytes[at] ^= 1 << rng.below(8);
        }
        2 => smallest(rng, built),
        _ => {
            let at = rng.pick(&[0, 3, 4, 55, 56, 63, 64, 72, 79, 510, 511]);
            built.bytes[footer + at] ^= 1 << rng.below(8);
        }
    }
}

/// The all-ones directory sector where no footer is; in a small file, or one that ends in zeros.
fn make_footer(rng: &mut Rng, built: &mut Built) {
    if built.shape.cowd {
        return length(rng, built);
    }
    let directory = Field { at: 56, size: 8 };
    built.put(directory, u64::MAX);
    match rng.below(4) {
        0 => built.bytes.truncate(512 * rng.within(1, 4) as usize),
        1 => smallest(rng, built),
        2 => built.bytes.extend([0; 1024]),
        _ => {}
    }
}

/// The smallest image with a footer, where F is 4 and the directory is empty, or one without even that.
fn smallest(rng: &mut Rng, built: &mut Built) {
    built.bytes.truncate(512);
    let mut footer = built.bytes.clone();
    if rng.one_in(2) {
        built.bytes.extend([0; 512]);
    }
    put(&mut footer, 56, 8, 1);
    built.bytes.extend(footer);
    built.bytes.extend([0; 512]);
}

/// A packed grain's two numbers.
pub fn marker(rng: &mut Rng, built: &mut Built) {
    let grains = built.those(|what| matches!(what, What::Grain(_)));
    if !built.shape.packed || grains.is_empty() {
        return structure(rng, built);
    }
    let area: &Area = &grains[rng.index(grains.len())];
    let at = area.first as usize * 512;
    let left = (built.sectors() * 512).saturating_sub(at as u64);
    if rng.one_in(2) {
        let field = Field { at, size: 8 };
        let now = built.get(field);
        let size = built.shape.grain_size;
        let value = rng.pick(&[
            now.wrapping_add(1),
            now.wrapping_sub(1),
            now.wrapping_add(size),
            now ^ 1 << 32,
            now ^ 1 << 63,
            now / size,
            0,
            u64::MAX,
        ]);
        built.put(field, value);
    } else {
        // The grain may end with the file, with its area, or one byte later.
        let inside = area.sectors * 512 - 12;
        let any = rng.any();
        let value = rng.pick(&[
            0,
            1,
            500,
            501,
            inside,
            inside + 1,
            left.saturating_sub(12),
            left.saturating_sub(11),
            u64::from(u32::MAX),
            u64::from(u32::MAX) - 11,
            any,
        ]);
        built.put(
            Field {
                at: at + 8,
                size: 4,
            },
            value,
        );
    }
    ask_about(built, area.what);
}

/// A redundant directory or table gets an entry of its own, in use or not.
pub fn copies(rng: &mut Rng, built: &mut Built) {
    let copies = built.those(|what| matches!(what, What::Redundant | What::Copy(_)));
    if copies.is_empty() {
        return structure(rng, built);
    }
    if rng.one_in(2) {
        return one_against(rng, built);
    }
    let area = &copies[rng.index(copies.len())];
    let used = match area.what {
        What::Copy(index) => built.shape.grains_of(index),
        _ => built.shape.entries(),
    };
    let room = area.sectors * 128;
    let entry = match rng.below(4) {
        0 => used - 1,
        1 => used.min(room - 1),
        2 => rng.below(room),
        _ => rng.below(used),
    };
    let at = (area.first * 512 + entry * 4) as usize;
    let field = Field { at, size: 4 };
    let now = built.get(field);
    let any = rng.any();
    let value = rng.pick(&[0, 1, 2, now ^ 1, now ^ 1 << 31, now.wrapping_add(1), any]);
    built.put(field, value);
}

/// An entry of one directory becomes 1; the other's stays, or becomes 0 or 2.
fn one_against(rng: &mut Rng, built: &mut Built) {
    let mut directories = built.those(|what| matches!(what, What::Directory | What::Redundant));
    rng.shuffle(&mut directories);
    let mut indexes = vec![0, built.shape.entries() - 1];
    indexes.extend(built.shape.tables.keys());
    let index = rng.pick(&indexes);
    let [one, other] = [0, 1].map(|which: usize| directories[which].first);
    let field = |directory: u64| Field {
        at: (directory * 512 + index * 4) as usize,
        size: 4,
    };
    built.put(field(one), 1);
    match rng.below(4) {
        0 => {}
        1 => built.put(field(other), 0),
        _ => built.put(field(other), 2),
    }
    // So that tables at sectors 1 and 2, which meet, are alike.
    let tables = built.bytes.get_mut(512..6 * 512);
    if let (true, Some(bytes)) = (rng.one_in(2) && one.min(other) >= 6, tables) {
        bytes.fill(0);
    }
    ask_about(built, What::Table(index));
}

/// Entries past those in use, bytes past 512 x F and sectors of no area: none of it may matter.
pub fn unused(rng: &mut Rng, built: &mut Built) {
    let shape = built.shape.clone();
    let fill = rng.pick(&[0, 0xff, 0xfe, 0x5a]);
    for area in built.areas.clone() {
        let used = match area.what {
            What::Table(index) | What::Copy(index) => shape.grains_of(index),
            What::Directory | What::Redundant => shape.entries(),
            _ => continue,
        };
        let from = (area.first * 512 + used * 4) as usize;
        let to = ((area.first + area.sectors) * 512) as usize;
        if let Some(bytes) = built.bytes.get_mut(from..to) {
            bytes.fill(fill);
        }
    }
    let mut taken = vec![false; built.sectors() as usize];
    for area in &built.areas {
        for sector in area.first..area.first + area.sectors {
            if let Some(place) = taken.get_mut(sector as usize) {
                *place = true;
            }
        }
    }
    for (sector, is_taken) in taken.into_iter().enumerate() {
        if !is_taken {
            built.bytes[sector * 512..][..512].fill(fill);
        }
    }
    if !built.shape.footer {
        let rest = vec![fill; rng.below(512) as usize];
        built.bytes.extend(rest);
    }
}

/// Any byte of header, footer, directories or tables.
pub fn structure(rng: &mut Rng, built: &mut Built) {
    let areas = built.those(|what| !matches!(what, What::Grain(_) | What::Descriptor));
    let area = &areas[rng.index(areas.len())];
    let reach = if area.what == What::Header { 80 } else { 512 };
    let at = area.first as usize * 512 + rng.index(reach);
    let bit = 1 << rng.below(8);
    if let Some(byte) = built.bytes.get_mut(at) {
        *byte ^= bit;
    }
    let what = area.what;
    ask_about(built, what);
}
