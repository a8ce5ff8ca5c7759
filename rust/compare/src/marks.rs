//! The check in a lent list on both sides: lists of every length about the needed one that hold anything, and areas that meet.

use crate::frames::{areas, room};
use crate::image::{meet, Built};
use crate::rng::Rng;
use crate::run::Run;
use crate::tally::Call;
use plain::{Marked, Verdict};

/// File sectors for each word of the list.
const WORD: u64 = 64;

/// By the group of the first area that meets an earlier one, from 3: neither the header nor a descriptor can.
const GROUPS: [&str; 6] = [
    "12, directory",
    "12, redundant",
    "12, primary table",
    "12, redundant table",
    "12, footer",
    "12, last sector",
];

impl Run<'_> {
    pub fn check_in(&mut self, image: &[u8], list: &[u64]) {
        let (plain, _) = self.lend(Call::CheckIn, image, list, |side, list| {
            side.check_in(image, list)
        });
        let verdict = Verdict {
            number: plain.number,
            place: plain.place,
            capacity: plain.capacity,
            grain_size: plain.grain_size,
        };
        self.count_accepted(Call::CheckIn, verdict, image);
        self.count_ones(Call::CheckIn, verdict, image);
        self.count_marked(plain, image, list);
        if plain.number == 12 {
            let row = that_meets(image, plain.marked);
            self.tally.answered(Call::CheckIn, row);
        }
    }

    /// Rows of the list's length and content, and of where two refusals would hold.
    fn count_marked(&mut self, plain: Marked, image: &[u8], list: &[u64]) {
        let f = image.len() as u64 / 512;
        let (needed, room) = (needed(image), list.len() as u64);
        let written = [0, 12].contains(&plain.number);
        let short = plain.number == 21;
        let exact = written && room == needed;
        let word_short = short && room + 1 == needed;
        let held = |word| written && list.iter().all(|held| *held == word);
        let meets = short && plain::check(image).number == 12;
        let rows = [
            ("written, exact room", exact),
            ("written, room left", written && room > needed),
            ("all of F marked", plain.number == 0 && plain.marked == f),
            ("exact, 64 divides F", exact && f % WORD == 0),
            ("exact, F is one more", exact && f % WORD == 1),
            ("short, 64 divides F", word_short && f % WORD == 0),
            ("short, F is one more", word_short && f % WORD == 1),
            ("21, else accepted", short && !meets),
            ("21, 12 too", meets),
            (
                "9 to 11, 21 too",
                (9..=11).contains(&plain.number) && room < needed,
            ),
            ("written, held zeros", held(0)),
            ("written, held ones", held(u64::MAX)),
        ];
        for (row, holds) in rows {
            if holds {
                self.tally.answered(Call::CheckIn, row);
            }
        }
    }
}

/// The words that the list has to have.
fn needed(image: &[u8]) -> u64 {
    (image.len() as u64 / 512 + WORD - 1) / WORD
}

/// The row of refusal 12 before which so many sectors were marked: every area has some, so that they tell which one was next.
pub fn that_meets(image: &[u8], marked: u64) -> &'static str {
    let mut sum = 0;
    for area in areas(image).chunks(3) {
        if sum == marked {
            let group = (area[0] as usize).wrapping_sub(3);
            return GROUPS.get(group).unwrap_or(&"unknown");
        }
        sum += area[2];
    }
    "12, grain"
}

/// The check of an image; where it is accepted, also of one that ends at an edge of a word or whose areas meet.
pub fn case(run: &mut Run, rng: &mut Rng, built: &Built) {
    ask(run, rng, &built.bytes);
    if plain::check(&built.bytes).number != 0 {
        return;
    }
    let mut other = built.clone();
    if !built.shape.footer && rng.one_in(2) {
        let sectors = needed(&built.bytes) * WORD + rng.below(2);
        let bytes = sectors * 512 + rng.pick(&[0, 1, 511]);
        other.bytes.resize(bytes as usize, 0);
    }
    if !rng.one_in(4) {
        meet(rng, &mut other);
    }
    for _ in 0..2 {
        ask(run, rng, &other.bytes);
    }
}

/// Asks for the check in a list that holds any words, zeros or ones.
pub fn ask(run: &mut Run, rng: &mut Rng, image: &[u8]) {
    let room = room(rng, needed(image)) as usize;
    let list: Vec<u64> = match rng.below(4) {
        0 => vec![0; room],
        1 => vec![u64::MAX; room],
        _ => (0..room).map(|_| rng.any()).collect(),
    };
    run.check_in(image, &list);
}
