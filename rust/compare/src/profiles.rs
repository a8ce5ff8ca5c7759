//! The lab profile on both sides: of any image, and of normal forms in which something is changed.

mod changed;

use crate::image::{build, Plan, Shape};
use crate::ones::number;
use crate::rng::Rng;
use crate::run::Run;
use crate::tally::Call;
use changed::change;
use plain::Verdict;

/// The profile's grain size.
const SIZE: u64 = 128;

impl Run<'_> {
    pub fn profile(&mut self, image: &[u8]) {
        let answers = self.sides.map(|side| side.profile(image));
        let call = Call::Profile;
        self.compare(call, [&answers[0], &answers[1]], true, &[image], &());
        let answer = answers[1];
        if answer.number != 0 {
            self.tally.refused(call, answer.number, answer.place);
            self.count_cowd(call, [answer.number, answer.place], image);
        }
        if answer.number == 8 {
            self.count_outside(call, answer.place, image);
        }
        for (row, holds) in rows(answer, image) {
            if holds {
                self.tally.answered(call, row);
            }
        }
    }
}

/// The part that 42's place is in.
pub fn part(image: &[u8], place: usize) -> &'static str {
    match Front::of(image).row(place, image.len()) {
        row if row.ends_with(" more") => "42, more",
        row => row,
    }
}

/// Rows, and whether they hold.
type Rows = Vec<(&'static str, bool)>;

/// What stands before the grains of a normal form: ends, in bytes.
pub struct Front {
    /// Of the directory's entries in use, and of its last sector.
    pub entries: usize,
    pub directory: usize,
    /// Of the entries of grains, and of the last table.
    pub grains: usize,
    pub tables: usize,
    /// Of the gap.
    pub gap: usize,
}

impl Front {
    /// That of the normal form of an image whose header is not refused.
    pub fn of(image: &[u8]) -> Front {
        let head = plain::header(image);
        let grains = (head.capacity - 1) / head.grain_size + 1;
        let n = (grains - 1) / 512 + 1;
        let first_table = 1 + (n - 1) / 128 + 1;
        let end = first_table + 4 * n;
        let v = (end - 1) / head.grain_size * head.grain_size + head.grain_size;
        Front {
            entries: 512 + 4 * n as usize,
            directory: 512 * first_table as usize,
            grains: (512 * first_table + 4 * grains) as usize,
            tables: 512 * end as usize,
            gap: 512 * v as usize,
        }
    }

    /// The row of a byte that differs.
    fn row(&self, at: usize, length: usize) -> &'static str {
        match at {
            4..=7 => "42, version",
            8..=11 => "42, flags",
            28..=43 => "42, descriptor",
            48..=55 => "42, redundant",
            56..=63 => "42, directory sector",
            64..=71 => "42, overhead",
            79..=511 => "42, padding",
            _ if at < self.entries => "42, directory entry",
            _ if at < self.directory => "42, unused directory",
            _ if at < self.grains => "42, table entry",
            _ if at < self.tables => "42, unused entry",
            _ if at < self.gap && at < length => "42, gap",
            _ if at < self.gap => "42, cut in the gap",
            _ if length - at == 1 => "42, a byte more",
            _ if length - at < 512 => "42, bytes more",
            _ if length - at == 512 => "42, a sector more",
            _ => "42, sectors more",
        }
    }
}

fn rows(answer: Verdict, image: &[u8]) -> Rows {
    match answer.number {
        0 => met(image),
        42 => {
            let place = answer.place as usize;
            vec![
                (Front::of(image).row(place, image.len()), true),
                ("42, inside an entry", place >= 512 && place % 4 != 0),
            ]
        }
        8..=12 | 23 | 27 | 47 => refused(answer.number, image),
        _ => Vec::new(),
    }
}

fn met(image: &[u8]) -> Rows {
    let (mut row, mut tally) = ([0; 6], [0; 63]);
    let counts = plain::survey(image, &[image.len() as u64], &mut row, &mut tally);
    let front = Front::of(image);
    vec![
        ("met, no grain", counts.stored == 0),
        ("met, stored grains", counts.stored > 0),
        ("met, zero grains", counts.zero > 0),
        ("met, n above 1", front.entries > 516),
        ("met, long directory", front.directory > 1024),
    ]
}

/// Where 23 and 47 come from, and what else would hold.
fn refused(refusal: u64, image: &[u8]) -> Rows {
    let head = plain::header(image);
    let size = head.grain_size != SIZE;
    let capacity = head.capacity % SIZE != 0;
    let dirty = head.dirty != 0;
    let same = || plain::normal(image, image.len()).as_deref() == Ok(image);
    vec![
        ("8 to 12, 27 too", refusal <= 12 && dirty),
        ("8 to 12, 47 too", refusal <= 12 && (size || capacity)),
        ("23, packed", refusal == 23),
        ("23, 27 too", refusal == 23 && dirty),
        ("23, 47 too", refusal == 23 && (size || capacity)),
        ("23, sizes met", refusal == 23 && !size && !capacity),
        ("27, other than 1", refusal == 27 && head.dirty != 1),
        ("27, 47 too", refusal == 27 && (size || capacity)),
        ("27, sizes met", refusal == 27 && !size && !capacity),
        ("47, grain size", refusal == 47 && size && !capacity),
        ("47, capacity", refusal == 47 && !size),
        ("47, both", refusal == 47 && size && capacity),
        ("47, normal form", refusal == 47 && same()),
    ]
}

/// The profile of an image, then of one that meets it or nearly does.
pub fn case(run: &mut Run, rng: &mut Rng, image: &[u8]) {
    ask(run, image);
    if rng.one_in(3) {
        let mut image = form(rng);
        for _ in 0..rng.pick(&[0, 1, 1, 1, 1, 1, 2]) {
            change(rng, &mut image);
        }
        ask(run, &image);
    }
}

/// Asks, unless the plain side would have to lay down a long front.
pub fn ask(run: &mut Run, image: &[u8]) {
    let head = plain::header(image);
    let long = head.grain_size == SIZE && head.capacity / SIZE > 512 * 200;
    if !long {
        run.profile(image);
    }
}

/// A normal form, mostly with the profile's sizes.
fn form(rng: &mut Rng) -> Vec<u8> {
    let size = rng.pick(&[SIZE, SIZE, SIZE, SIZE, SIZE, SIZE, SIZE, 64, 256, 8]);
    let grains = match rng.below(18) {
        0 => rng.within(65_535, 65_537),
        1..=4 => rng.within(511, 514),
        5 => rng.within(1, 2000),
        _ => rng.within(1, 12),
    };
    let plan = Plan {
        packed: Some(rng.one_in(12)),
        size: Some((grains * size, size)),
        clean: true,
        most_sectors: rng.pick(&[0, SIZE, SIZE, 3 * SIZE]),
        ..Plan::default()
    };
    let shape = Shape::choose(rng, plan);
    let image = build(rng, shape).bytes;
    match rng.below(16) {
        // As it was built, which is seldom its normal form.
        0 => image,
        _ => plain::normal(&image, usize::MAX).unwrap_or(image),
    }
}

/// An entry of a directory or table.
fn entry(image: &[u8], at: usize) -> u64 {
    number(image, at as u64, 4)
}
