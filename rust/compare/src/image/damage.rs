//! Damage: one thing about an image changed, at an edge of a rule.

use super::edges::{header_field, most, place};
use super::outside::outside;
use super::parts;
use super::{Area, Built, Field, Plan, What};
use crate::rng::Rng;

/// Changes one thing. `which` walks through the kinds of damage, so that few cases reach all of them.
pub fn damage(rng: &mut Rng, built: &mut Built, which: u64) {
    match which % 16 {
        0..=2 => header(rng, built),
        3 | 4 => move_area(rng, built),
        5 => outside(rng, built),
        6 => swap(rng, built),
        7 => parts::length(rng, built),
        8 => parts::cut_at_area(rng, built),
        9 => parts::footer(rng, built),
        10 | 11 => parts::marker(rng, built),
        12 => parts::copies(rng, built),
        13 => parts::unused(rng, built),
        14 => entry(rng, built),
        _ => parts::structure(rng, built),
    }
}

/// The plan of an image that this kind of damage can be done to.
pub fn suited(plan: Plan, which: u64) -> Plan {
    let (packed, redundant) = match which % 16 {
        9..=11 => (true, false),
        5 | 12 => (false, true),
        _ => return plan,
    };
    if plan.cowd {
        return plan;
    }
    Plan {
        packed: if packed { Some(true) } else { plan.packed },
        footer: which % 16 == 9,
        redundant,
        ..plan
    }
}

/// A header field; the footer's copy of it too, mostly.
fn header(rng: &mut Rng, built: &mut Built) {
    let (field, value) = header_field(rng, built);
    let mut starts = built.headers();
    if starts.len() > 1 && rng.one_in(4) {
        starts.remove(rng.index(2));
    }
    let directory = field.at == 56 && built.shape.footer;
    for start in starts {
        // Where a footer stands, the directory's sector counts there.
        if directory && start == 0 && !rng.one_in(8) {
            continue;
        }
        let at = start + field.at;
        built.put(Field { at, ..field }, value);
    }
    // Flags and compression go together, else all such damage is refusal 5.
    if field.at == 8 && !built.shape.cowd && rng.one_in(2) {
        for start in built.headers() {
            let at = start + 77;
            built.put(Field { at, size: 2 }, value >> 16 & 1);
        }
    }
}

/// The areas that a pointer says the place of: one at least, since each image has a directory.
fn movable(built: &Built) -> Vec<Area> {
    let areas = built.areas.iter();
    let pointed = areas.filter(|area| !area.pointers.is_empty());
    pointed.cloned().collect()
}

/// An area's pointers get another place; perhaps its content goes there too.
fn move_area(rng: &mut Rng, built: &mut Built) {
    let movable = movable(built);
    let area = &movable[rng.index(movable.len())];
    let value = place(rng, built, area.sectors, area.pointers[0].size);
    if rng.one_in(2) {
        copy(built, area, value);
    }
    // One copy of two pointers alone makes the copies differ.
    let one = rng.one_in(4).then(|| rng.index(area.pointers.len()));
    for (index, field) in area.pointers.iter().enumerate() {
        if one.is_none() || one == Some(index) {
            built.put(*field, value);
        }
    }
    ask_about(built, area.what);
}

/// Lets an area share a sector with another one: a descriptor, whose bytes are not judged, more often than the others, and with
/// the file's last two more often, since few images have them.
pub fn meet(rng: &mut Rng, built: &mut Built) {
    let at_end = built.shape.footer && !rng.one_in(4);
    let mut those = built.those(|what| what == What::Descriptor);
    if those.is_empty() || (!at_end && rng.one_in(2)) {
        those = movable(built);
    }
    let area = &those[rng.index(those.len())];
    let wanted = if at_end { 2 } else { rng.below(4) };
    let mut others = built.those(|what| what != area.what && kind(what) == wanted);
    if others.is_empty() {
        others = built.those(|what| what != area.what);
    }
    let other = &others[rng.index(others.len())];
    let least = other.first.saturating_sub(area.sectors - 1).max(1);
    let to = rng.within(least, (other.first + other.sectors - 1).max(least));
    match rng.below(3) {
        0 => copy(built, area, to),
        1 => copy_beside(built, area, to, other),
        _ => {}
    }
    for field in &area.pointers {
        built.put(*field, to);
    }
}

/// Areas of which an image may have many, those at its end, and the others.
fn kind(what: What) -> u64 {
    match what {
        What::Grain(_) => 0,
        What::Table(_) | What::Copy(_) => 1,
        What::Footer | What::Last => 2,
        _ => 3,
    }
}

/// Copies those of an area's sectors to another place that do not come to stand in `other`.
fn copy_beside(built: &mut Built, area: &Area, to: u64, other: &Area) {
    for (from, to) in (area.first..area.first + area.sectors).zip(to..) {
        let sector = Area {
            first: from,
            sectors: 1,
            ..area.clone()
        };
        if !(other.first..other.first + other.sectors).contains(&to) {
            copy(built, &sector, to);
        }
    }
}

/// Copies an area's bytes to another place, if they fit there.
fn copy(built: &mut Built, area: &Area, to: u64) {
    let f = built.sectors();
    if area.first + area.sectors <= f && to < f && to + area.sectors <= f && to != 0 {
        let from = area.first as usize * 512;
        let bytes = from..from + area.sectors as usize * 512;
        built.bytes.copy_within(bytes, to as usize * 512);
    }
}

/// Two entries change places, or one becomes the other.
fn swap(rng: &mut Rng, built: &mut Built) {
    let kind = rng.below(3);
    let those = built.those(|what| match what {
        What::Grain(_) => kind < 2,
        What::Table(_) | What::Copy(_) => kind == 2,
        _ => false,
    });
    if those.len() < 2 {
        return move_area(rng, built);
    }
    let one = &those[rng.index(those.len())];
    let other = &those[rng.index(those.len())];
    let doubled = rng.one_in(2);
    for (a, b) in one.pointers.iter().zip(&other.pointers) {
        let (first, second) = (built.get(*a), built.get(*b));
        built.put(*a, second);
        if !doubled {
            built.put(*b, first);
        }
    }
    ask_about(built, one.what);
    ask_about(built, other.what);
}

/// Any entry in use of a directory or a table, the redundant one alike or not.
fn entry(rng: &mut Rng, built: &mut Built) {
    let shape = built.shape.clone();
    let tables = built.those(|what| matches!(what, What::Table(_)));
    let whole_directory = tables.is_empty() || rng.one_in(3);
    let (index, sectors) = if whole_directory {
        (rng.below(shape.entries()), shape.per_table() * 4 / 512)
    } else {
        (0, shape.grain_size)
    };
    let mut fields = Vec::new();
    if whole_directory {
        for directory in built.those(|what| matches!(what, What::Directory | What::Redundant)) {
            fields.push(directory.first * 512 + index * 4);
        }
        built
            .asked
            .push(index * shape.per_table() * shape.grain_size);
    } else if let What::Table(number) = tables[rng.index(tables.len())].what {
        let cell = rng.below(shape.grains_of(number));
        for table in built.those(|what| what == What::Table(number) || what == What::Copy(number)) {
            fields.push(table.first * 512 + cell * 4);
        }
        let grain = number * shape.per_table() + cell;
        built.asked.push(grain * shape.grain_size);
    }
    let value = match rng.below(4) {
        0 => 1,
        1 => rng.pick(&[0, 2, most(4)]),
        _ => place(rng, built, sectors, 4),
    };
    if rng.one_in(4) {
        fields.truncate(1);
    }
    for at in fields {
        let at = at as usize;
        built.put(Field { at, size: 4 }, value);
    }
}

/// The next lookups ask for a sector that the damage concerns.
pub fn ask_about(built: &mut Built, what: What) {
    let size = built.shape.grain_size;
    let sector = match what {
        What::Grain(grain) => grain * size,
        What::Table(index) | What::Copy(index) => index * built.shape.per_table() * size,
        _ => return,
    };
    built.asked.push(sector);
}
