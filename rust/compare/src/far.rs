//! Images of more than 4 GiB, nearly all of it never touched: areas about file sectors 2^22 and 2^23, and past them.

use crate::image::put;
use crate::rng::Rng;
use crate::run::Run;
use crate::tally::Call;
use crate::{frames, marks, moves, profiles, splits, surveys};

/// The longest image, in sectors.
pub const MOST: u64 = (1 << 23) + (1 << 12);

/// Runs cases until `count` comparisons are made. `memory` has MOST sectors of zeros, and has them again afterwards.
pub fn run_far(run: &mut Run, memory: &mut [u8], seed: u64, first: u64, count: u64) {
    let mut number = first;
    while run.tally.comparisons < count {
        run.case = number;
        far_case(run, memory, &mut Rng::new(seed, number));
        number += 1;
    }
}

fn far_case(run: &mut Run, memory: &mut [u8], rng: &mut Rng) {
    let cowd = rng.one_in(6);
    let grain_size = 1 << rng.within(if cowd { 0 } else { 3 }, 11);
    let table_sectors = if cowd { 32 } else { 4 };
    let grains = rng.within(1, 12);
    let capacity = grains * grain_size - rng.below(grain_size.min(3));
    let f = MOST - rng.below(1 << 12);
    let mut touched = Vec::new();
    let mut write = |memory: &mut [u8], at: u64, size: usize, value: u64| {
        put(memory, at as usize, size, value);
        touched.push((at as usize, size));
    };

    let directory = place(rng, f, 1);
    let redundant = if cowd || rng.one_in(2) {
        0
    } else {
        place(rng, f, 1)
    };
    write(memory, 0, 4, if cowd { 0x4457_4f43 } else { 0x564d_444b });
    if cowd {
        write(memory, 4, 4, 1);
        write(memory, 12, 4, capacity);
        write(memory, 16, 4, grain_size);
        write(memory, 20, 4, directory);
        write(memory, 24, 4, 1);
    } else {
        let (version, flags) = rng.pick(&[(1, 0), (3, 0), (2, 4), (3, 4)]);
        write(memory, 4, 4, version);
        write(memory, 8, 4, flags);
        write(memory, 12, 8, capacity);
        write(memory, 20, 8, grain_size);
        write(memory, 44, 4, 512);
        write(memory, 48, 8, redundant);
        write(memory, 56, 8, directory);
        if rng.one_in(3) {
            let sectors = rng.pick(&[1, 40, 1 << 20, 1 << 22, (1 << 22) + 1]);
            write(memory, 28, 8, place(rng, f, sectors));
            write(memory, 36, 8, sectors);
        }
    }
    let entries: Vec<u64> = (0..grains)
        .map(|_| {
            if rng.one_in(4) {
                rng.below(2)
            } else {
                place(rng, f, grain_size)
            }
        })
        .collect();
    for at in [directory, redundant] {
        if at == 0 {
            continue;
        }
        let table = place(rng, f, table_sectors);
        write(memory, at * 512, 4, table);
        for (index, entry) in entries.iter().enumerate() {
            write(memory, table * 512 + index as u64 * 4, 4, *entry);
        }
    }

    let image = &memory[..(f * 512 + rng.below(512)) as usize];
    run.check(image);
    for _ in 0..2 {
        run.lookup(image, rng.below(capacity));
        run.read(image, rng.below(capacity));
        run.steps(image, rng.below(capacity));
    }
    frames::ask(run, rng, image);
    marks::ask(run, rng, image);
    profiles::ask(run, image);
    // What is cut off is an image by itself.
    let cut = rng.pick(&[0, 1, 512, 1 << 32]);
    surveys::ask(run, rng, image, &[image.len() as u64 - cut, cut]);
    splits::ask(run, rng, image, capacity);
    for call in [Call::ToKdmv, Call::ToCowd] {
        moves::ask(run, rng, call, image);
    }
    for (at, size) in touched {
        memory[at..at + size].fill(0);
    }
}

/// A place for an area, about 2^22, 2^23 or F, or anywhere; now and then too close to another, or past F.
fn place(rng: &mut Rng, f: u64, sectors: u64) -> u64 {
    let near = rng.within(0, 60 * sectors.min(40));
    match rng.below(8) {
        0 => 4 + near,
        1 => (1 << 22) + near,
        2 => (1 << 22) - near,
        3 => (1 << 23) + near,
        4 => (1 << 23) - near,
        5 => f.saturating_sub(sectors + near.saturating_sub(1)),
        6 => rng.pick(&[1_u64 << 22, 1 << 23]).saturating_sub(sectors) + rng.below(3),
        _ => 4 + rng.below(f - 4),
    }
}
