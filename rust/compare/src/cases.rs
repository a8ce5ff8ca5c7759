//! The cases of a run: each makes its inputs from the seed and its own number, and calls both sides on them.

use crate::dirty::written;
use crate::image::{build, damage, put, suited, Built, Plan, Shape};
use crate::rng::Rng;
use crate::run::Run;
use crate::tally::Call;
use crate::{frames, lists, marks, mends, moves, profiles, splits, starts, surveys, text};
use plain::Extent;

/// The numbers on a program's command line: COUNT, SEED and first CASE.
pub fn numbers(program: &str, count: u64) -> [u64; 3] {
    let mut numbers = [count, 1, 0];
    let words: Vec<String> = std::env::args().skip(1).collect();
    let mut good = words.len() <= numbers.len();
    for (number, word) in numbers.iter_mut().zip(&words) {
        match word.parse() {
            Ok(value) => *number = value,
            Err(_) => good = false,
        }
    }
    if !good {
        eprintln!("usage: {program} [COUNT] [SEED] [CASE]");
        std::process::exit(2);
    }
    numbers
}

/// Runs cases from `first` on until `count` comparisons are made.
pub fn run_cases(run: &mut Run, seed: u64, first: u64, count: u64) {
    let mut number = first;
    while run.tally.comparisons < count {
        run.case = number;
        case(run, &mut Rng::new(seed, number), number);
        number += 1;
    }
}

/// One case. Which kind of case and of damage it is depends on its number alone, so that few cases reach every kind.
pub fn case(run: &mut Run, rng: &mut Rng, number: u64) {
    let which = number / 16;
    match number % 16 {
        0..=5 => image_case(run, rng, which),
        6 if run.compares(Call::Survey) => surveys::case(run, rng, which),
        7..=9 => chain_case(run, rng, which),
        10 | 11 if run.compares(Call::Collapse) => collapse_case(run, rng, which),
        12 | 13 if run.compares(Call::Descriptor) => text_case(run, rng, which),
        14 if run.compares(Call::Split) => splits::case(run, rng, which),
        15 if run.compares(Call::Find) => lists::case(run, rng),
        _ => image_case(run, rng, which),
    }
}

/// A sound image, or one with a damage or two.
pub fn made(rng: &mut Rng, plan: Plan, which: u64, damages: u64) -> Built {
    let fits = damages > 0 && !rng.one_in(8);
    let plan = if fits { suited(plan, which) } else { plan };
    let shape = Shape::choose(rng, plan);
    let mut built = build(rng, shape);
    for number in 0..damages {
        let which = which + number * rng.below(16);
        damage(rng, &mut built, which);
    }
    built
}

/// How much stored data an image may hold, in sectors; seldom enough for the largest grain.
fn most_sectors(rng: &mut Rng) -> u64 {
    match rng.below(40) {
        0 => 4100,
        1..=4 => 600,
        _ => 130,
    }
}

/// A COWD image, which few calls take: sound or damaged, about as long as its header, or of another version or grain size.
pub fn gone(rng: &mut Rng, plan: Plan, which: u64) -> Built {
    let damages = rng.pick(&[0, 0, 1]);
    let mut built = made(rng, Plan { cowd: true, ..plan }, which, damages);
    match rng.below(8) {
        0 => built.bytes.resize(rng.pick(&[4, 512, 2047, 2047]), 0),
        1 => built.bytes.resize(rng.pick(&[2048, 2048, 2049]), 0),
        2 => put(&mut built.bytes, 4, 4, rng.pick(&[0, 2, 3, 257])),
        3 => put(&mut built.bytes, 16, 4, rng.pick(&[0, 3, 4096])),
        _ => {}
    }
    built
}

/// An image of a case: COWD, which most calls only refuse, in one of eight.
fn any_image(rng: &mut Rng, which: u64) -> Built {
    let plan = Plan {
        most_sectors: most_sectors(rng),
        ..Plan::default()
    };
    let damages = rng.pick(&[0, 1, 1, 1, 1, 1, 2]);
    match rng.one_in(8) {
        true => gone(rng, plan, which),
        false => made(rng, plan, which, damages),
    }
}

fn image_case(run: &mut Run, rng: &mut Rng, which: u64) {
    let built = any_image(rng, which);
    let image = &built.bytes;
    let before = image.clone();
    run.check(image);
    run.header(image);
    let sectors = [(); 3].map(|()| asked(rng, &built));
    for sector in sectors {
        run.lookup(image, sector);
        run.read(image, sector);
    }
    if run.compares(Call::Normal) {
        run.normal(image, room(rng, needed(&[image])));
    }
    for sector in sectors {
        run.steps(image, sector);
    }
    if run.compares(Call::Frame) {
        frames::case(run, rng, image);
    }
    if run.compares(Call::CheckIn) {
        marks::case(run, rng, &built);
    }
    if run.compares(Call::Mend) {
        mends::case(run, rng, image);
    }
    if run.compares(Call::ToKdmv) {
        moves::case(run, rng, image);
    }
    if run.compares(Call::Profile) {
        profiles::case(run, rng, image);
    }
    if run.compares(Call::Close) {
        starts::case(run, rng, image, which);
    }
    run.unchanged(Call::Check, &before, image);
}

/// A sector to ask for: one the image suggests, most of all one that its damage concerns.
fn asked(rng: &mut Rng, built: &Built) -> u64 {
    match rng.below(3) {
        0 => built.asked[built.asked.len() - 1],
        _ => rng.pick(&built.asked),
    }
}

/// The length of a result, of dirty images too. Where the directory is large it is not made, and only short outputs are tried.
fn needed(layers: &[&[u8]]) -> u64 {
    let head = plain::header(layers[0]);
    if head.number != 0 || head.capacity / head.grain_size > 512 * 200 {
        return 0;
    }
    written(layers, usize::MAX).map_or(0, |bytes| bytes.len() as u64)
}

/// An output's length: exact, a byte short, longer, or anything.
fn room(rng: &mut Rng, needed: u64) -> usize {
    let room = match rng.below(6) {
        0 | 1 => needed,
        2 => needed.saturating_sub(1),
        3 => needed + rng.within(1, 700),
        4 => rng.below(needed + 1),
        _ => rng.pick(&[0, 1, 511, 512, needed + 1]),
    };
    room as usize
}

fn chain_case(run: &mut Run, rng: &mut Rng, which: u64) {
    let count = match rng.below(12) {
        0 => 16,
        1 => 17,
        2 => 1,
        3 => rng.within(0, 17),
        _ => rng.within(2, 5),
    };
    let size = chain_size(rng);
    let sound = rng.one_in(2);
    let mut layers = Vec::new();
    let mut lengths = Vec::new();
    let mut sectors = vec![size.0, size.0 - 1, rng.any()];
    for _ in 0..count {
        let mut plan = Plan {
            size: Some(size),
            most_sectors: 40,
            ..Plan::default()
        };
        if rng.one_in(12 * count) {
            // A layer of another size.
            plan.size = Some((size.0 + rng.below(2), size.1 << rng.below(2)));
        }
        let damages = u64::from(!sound && rng.one_in(count));
        let built = match rng.one_in(5 * count) {
            true => gone(rng, plan, which),
            false => made(rng, plan, which, damages),
        };
        sectors.extend([asked(rng, &built), asked(rng, &built), asked(rng, &built)]);
        if damages > 0 {
            sectors.extend([built.asked[built.asked.len() - 1]; 4]);
        }
        lengths.push(built.bytes.len() as u64);
        layers.extend(built.bytes);
    }
    for round in 0..5 {
        let sector = rng.pick(&sectors);
        if round == 4 {
            lists::damage_lengths(rng, &mut lengths);
        }
        run.chain(&layers, &lengths, sector);
    }
}

/// A small size.
fn chain_size(rng: &mut Rng) -> (u64, u64) {
    let grain_size = rng.pick(&[8, 8, 8, 16, 64]);
    let capacity = match rng.below(4) {
        0 => grain_size * 512 + rng.below(3),
        1 => rng.within(1, grain_size * 1500),
        _ => rng.within(1, grain_size * 8),
    };
    (capacity, grain_size)
}

fn collapse_case(run: &mut Run, rng: &mut Rng, which: u64) {
    let (capacity, grain_size) = crate::image::size(rng, false, false);
    let usual = Plan {
        packed: Some(false),
        size: Some((capacity, grain_size)),
        most_sectors: most_sectors(rng),
        ..Plan::default()
    };
    // Damaged: the lower, the upper, both, or neither; and of another kind or size alike.
    let (bad, other) = (
        rng.pick(&[0, 0, 0, 1, 2, 3]),
        rng.pick(&[0, 0, 0, 0, 1, 2, 3]),
    );
    let mut pair = Vec::new();
    for bit in [1, 2] {
        let mut plan = usual;
        if other & bit != 0 {
            match rng.below(3) {
                0 => plan.cowd = true,
                1 => plan.packed = Some(true),
                _ => {}
            }
            if rng.one_in(2) {
                let other = (grain_size << rng.below(2)).min(2048);
                plan.size = Some((capacity + rng.below(2), other));
            }
        }
        let which = which + rng.below(bit);
        pair.push(match plan.cowd {
            true => gone(rng, plan, which),
            false => made(rng, plan, which, u64::from(bad & bit != 0)),
        });
    }
    let (lower, upper) = (&pair[0].bytes, &pair[1].bytes);
    let needed = needed(&[lower, upper]);
    for _ in 0..2 {
        run.collapse(lower, upper, room(rng, needed));
    }
}

/// Texts are small: a case has five of them.
fn text_case(run: &mut Run, rng: &mut Rng, which: u64) {
    for number in 0..5 {
        one_text(run, rng, which * 5 + number);
    }
}

fn one_text(run: &mut Run, rng: &mut Rng, which: u64) {
    let sound = text::sound(rng);
    let text = if rng.one_in(5) {
        sound.bytes()
    } else {
        text::damage(rng, sound, which)
    };
    let count = plain::descriptor(&text, usize::MAX).0.extents;
    for _ in 0..2 {
        let room = match rng.below(5) {
            0 => count.saturating_sub(1),
            1 => count,
            2 => count + 1,
            _ => rng.pick(&[0, 32, 40]),
        };
        let list: Vec<Extent> = (0..room).map(|_| lists::record(rng)).collect();
        run.descriptor(&text, &list);
    }
}
