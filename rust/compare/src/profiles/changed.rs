//! Changes of a normal form: each part of it, its length, and what the profile asks of it beside.

use super::{entry, Front, SIZE};
use crate::image::put;
use crate::rng::Rng;
use std::ops::Range;

/// One change. What is changed once already may be no normal form, and need not be one.
pub fn change(rng: &mut Rng, image: &mut Vec<u8>) {
    if plain::header(image).number != 0 {
        return;
    }
    let front = Front::of(image);
    if image.len() < front.tables {
        return;
    }
    match rng.below(22) {
        0 => put(image, 4, 4, rng.pick(&[1, 3])),
        1 => put(image, 8, 4, rng.pick(&[0, 1, 4])),
        2 => describe(rng, image),
        3 => copy_directory(image, &front),
        4 => move_directory(image, &front),
        5 => put(image, 64, 8, rng.pick(&[0, 1, 127, 129, u64::MAX])),
        6 => other_byte(rng, image, 79..512),
        7 => {
            let at = entry_of(rng, 512..front.entries);
            put(image, at, 4, rng.below(2));
        }
        8 => swap(rng, image, 512..front.entries),
        9 => other_byte(rng, image, front.entries..front.directory),
        10 => swap(rng, image, front.directory..front.grains),
        11 => {
            let at = entry_of(rng, front.directory..front.grains);
            put(image, at, 4, rng.below(2));
        }
        12 => other_byte(rng, image, front.grains..front.tables),
        13 => other_byte(rng, image, front.tables..front.gap),
        14..=16 => {
            let more = rng.pick(&[1, 1, 2, 77, 511, 511, 512, 512, 513]);
            let byte = rng.pick(&[0, 0, 7]);
            image.resize(image.len() + more, byte);
        }
        17 => cut(rng, image, &front),
        18 => drop_last(image, &front),
        19 => image[72] = rng.pick(&[1, 2, 255]),
        20 => {
            let capacity = plain::header(image).capacity;
            put(image, 12, 8, capacity - rng.below(SIZE.min(capacity)));
        }
        _ => move_grain(image, &front),
    }
}

/// Another byte somewhere in a part, if there is any.
fn other_byte(rng: &mut Rng, image: &mut [u8], part: Range<usize>) {
    let end = part.end.min(image.len());
    if part.start < end {
        let at = match rng.below(4) {
            0 => part.start,
            1 => end - 1,
            _ => part.start + rng.index(end - part.start),
        };
        image[at] ^= rng.within(1, 255) as u8;
    }
}

/// Where an entry of a part stands.
fn entry_of(rng: &mut Rng, part: Range<usize>) -> usize {
    part.start + 4 * rng.index(part.len() / 4)
}

/// Two entries change places.
fn swap(rng: &mut Rng, image: &mut [u8], part: Range<usize>) {
    let named = |at: &usize| entry(image, *at) > 1;
    let mut places: Vec<usize> = part.step_by(4).filter(named).collect();
    rng.shuffle(&mut places);
    if let [one, other, ..] = places[..] {
        let entries = [one, other].map(|at| entry(image, at));
        put(image, one, 4, entries[1]);
        put(image, other, 4, entries[0]);
    }
}

/// The first sector behind the image, which is filled up to it.
fn behind(image: &mut Vec<u8>) -> u64 {
    let sectors = (image.len() + 511) / 512;
    image.resize(sectors * 512, 0);
    sectors as u64
}

/// A descriptor behind the image.
fn describe(rng: &mut Rng, image: &mut Vec<u8>) {
    let at = behind(image);
    put(image, 28, 8, at);
    put(image, 36, 8, 1);
    let byte = rng.pick(&[0, b'#']);
    image.resize(image.len() + 512, byte);
}

/// The same directory behind the image.
fn move_directory(image: &mut Vec<u8>, front: &Front) {
    let at = behind(image);
    image.extend_from_within(512..front.directory);
    put(image, 56, 8, at);
}

/// A redundant directory behind the image, with its tables.
fn copy_directory(image: &mut Vec<u8>, front: &Front) {
    let at = behind(image);
    image.extend_from_within(512..front.tables);
    put(image, 48, 8, at);
    let moved = at - 1;
    for place in (512..front.entries).step_by(4) {
        let table = entry(image, place);
        if table > 1 {
            put(image, place + 512 * moved as usize, 4, table + moved);
        }
    }
}

/// An image that ends in its gap, or inside of a grain.
fn cut(rng: &mut Rng, image: &mut Vec<u8>, front: &Front) {
    let least = if image.len() > front.gap {
        front.gap
    } else {
        front.tables
    };
    let left = match rng.below(3) {
        0 => least,
        1 => image.len() - 1,
        // An image that was cut there already has no byte more.
        _ => least + rng.index((image.len() - least).max(1)),
    };
    image.truncate(left);
}

/// The entries in use that name stored grains.
fn stored(image: &[u8], front: &Front) -> Vec<usize> {
    let entries = (front.directory..front.grains).step_by(4);
    entries.filter(|at| entry(image, *at) > 1).collect()
}

/// The last stored grain is named no more, and still there.
fn drop_last(image: &mut [u8], front: &Front) {
    if let Some(at) = stored(image, front).last() {
        put(image, *at, 4, 0);
    }
}

/// The last stored grain stands a sector further on.
fn move_grain(image: &mut Vec<u8>, front: &Front) {
    if let Some(at) = stored(image, front).last() {
        let sector = entry(image, *at);
        put(image, *at, 4, sector + 1);
        image.resize(image.len() + 512, 0);
    }
}
