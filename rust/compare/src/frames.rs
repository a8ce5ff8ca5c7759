//! The frame on both sides, in lists of every length about the needed one.

use crate::image::anywhere;
use crate::rng::Rng;
use crate::run::Run;
use crate::tally::Call;
use plain::Verdict;

impl Run<'_> {
    pub fn frame(&mut self, image: &[u8], list: &[u64]) {
        let (plain, words) = self.lend(Call::Frame, image, list, |side, list| {
            side.frame(image, list)
        });
        let head = plain::header(image);
        let verdict = Verdict {
            number: plain.number,
            place: plain.place,
            capacity: head.capacity,
            grain_size: head.grain_size,
        };
        self.count_accepted(Call::Frame, verdict, image);
        if plain.number == 0 {
            self.count_framed(image, &words[..3 * plain.count as usize], list.len());
        }
    }

    /// Rows of a frame, by the words of its areas and the length of the list.
    fn count_framed(&mut self, image: &[u8], words: &[u64], room: usize) {
        let tables = words.chunks(3).any(|area| [5, 6].contains(&area[0]));
        let has = |one: [u64; 3]| words.chunks(3).any(|area| area == one);
        let rows = [
            ("no table", !tables),
            ("accepted, table at 1", has([5, 1, 4])),
            ("accepted, copy at 1", has([6, 1, 4])),
            ("refused by the check", plain::check(image).number != 0),
            ("written, exact room", words.len() == room),
            ("written, room left", words.len() < room),
        ];
        for (row, holds) in rows {
            if holds {
                self.tally.answered(Call::Frame, row);
            }
        }
    }
}

/// The frame of an image, and of one whose areas stand anywhere.
pub fn case(run: &mut Run, rng: &mut Rng, image: &[u8]) {
    ask(run, rng, image);
    let cowd = rng.one_in(16);
    let other = anywhere(rng, cowd);
    ask(run, rng, &other);
}

/// Asks for the frame in a list that holds any words.
pub fn ask(run: &mut Run, rng: &mut Rng, image: &[u8]) {
    let room = room(rng, areas(image).len() as u64);
    let list: Vec<u64> = (0..room).map(|_| rng.any()).collect();
    run.frame(image, &list);
}

/// The words of an image's frame, none where it is refused, found by lists of twice the length each.
pub fn areas(image: &[u8]) -> Vec<u64> {
    let mut list = vec![0; 96];
    loop {
        let framed = plain::frame(image, &mut list);
        if framed.number != 21 {
            list.truncate(3 * framed.count as usize);
            return list;
        }
        list.resize(2 * list.len(), 0);
    }
}

/// A list's length: exact, a word short, longer, or anything.
pub fn room(rng: &mut Rng, needed: u64) -> u64 {
    match rng.below(6) {
        0 | 1 => needed,
        2 | 3 => needed.saturating_sub(1),
        4 => needed + rng.within(1, 12),
        _ => rng.pick(&[0, 1, 3, needed / 2, needed.saturating_sub(3)]),
    }
}
