//! Damage to what refusal 8 judges: some of its five parts put outside the file, at its end, far behind it or at sector 0.

use super::damage::ask_about;
use super::edges::most;
use super::shape::up;
use super::{Built, Field, What};
use crate::rng::Rng;

/// Puts one part outside, and perhaps some of those with a higher place, as far as the image can have them.
pub fn outside(rng: &mut Rng, built: &mut Built) {
    let lowest = rng.within(1, 5);
    for place in lowest..=5 {
        if place > lowest && rng.one_in(2) {
            continue;
        }
        match place {
            1 => descriptor(rng, built),
            2 => directory(rng, built),
            3 => redundant(rng, built),
            4 => table(rng, built, What::Directory),
            _ => table(rng, built, What::Redundant),
        }
    }
}

/// A number for an area of `sectors` that ends past the file, by one sector or by as much as there can be. All ones would be a
/// directory at the end.
fn past(rng: &mut Rng, built: &Built, sectors: u64, size: usize) -> u64 {
    let f = built.sectors();
    let by_one = (f + 1).saturating_sub(sectors);
    let wraps = most(size) - sectors + 1;
    rng.pick(&[by_one, by_one, f, wraps.min(most(size) - 1), most(size) - 1])
}

/// Past the file, or with one of its two numbers zero.
fn descriptor(rng: &mut Rng, built: &mut Built) {
    if built.shape.cowd {
        return;
    }
    let sectors = built.shape.descriptor.max(1);
    let first = past(rng, built, sectors, 8);
    let (first, sectors) = rng.pick(&[
        (first, sectors),
        (first, sectors),
        (first, 0),
        (1, 0),
        (0, sectors),
        (1, u64::MAX),
    ]);
    for start in built.headers() {
        for (at, value) in [(28, first), (36, sectors)] {
            let at = start + at;
            built.put(Field { at, size: 8 }, value);
        }
    }
}

fn directory(rng: &mut Rng, built: &mut Built) {
    let sectors = up(built.shape.stored_entries * 4, 512);
    for area in built.those(|what| what == What::Directory) {
        let field = area.pointers[0];
        let past = past(rng, built, sectors, field.size);
        built.put(field, rng.pick(&[0, past, past]));
    }
}

/// There is one then, where there was none.
fn redundant(rng: &mut Rng, built: &mut Built) {
    if built.shape.cowd {
        return;
    }
    let past = past(rng, built, up(built.shape.entries() * 4, 512), 8);
    for start in built.headers() {
        let at = start + 48;
        built.put(Field { at, size: 8 }, past);
    }
}

/// An entry in use of a directory, if the image has that, names a table past the file.
fn table(rng: &mut Rng, built: &mut Built, directory: What) {
    let shape = &built.shape;
    let (n, sectors) = (shape.entries(), shape.per_table() * 4 / 512);
    let index = rng.pick(&[0, n - 1, n / 2]);
    for area in built.those(|what| what == directory) {
        let past = past(rng, built, sectors, 4);
        let at = (area.first * 512 + index * 4) as usize;
        built.put(Field { at, size: 4 }, past);
        ask_about(built, What::Table(index));
    }
}
