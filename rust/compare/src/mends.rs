//! Mending on both sides: images whose sides differ, from either of them, in lists of every length about the needed one.

use crate::frames::{areas, room};
use crate::image::{on_directories, torn};
use crate::marks::that_meets;
use crate::ones::one_is_zero;
use crate::pairs::{
    alike_as_text, ascending, changed, differing, frame_meets, other_places, unused_differ, Change,
};
use crate::rng::Rng;
use crate::run::Run;
use crate::tally::Call;
use plain::{Mended, Verdict};

impl Run<'_> {
    /// Images and lists are the same before the call, and are compared whole after it.
    pub fn mend(&mut self, image: &[u8], good: u64, list: &[u64]) {
        let [tested, plain] = self.sides.map(|side| {
            let (mut image, mut list) = (image.to_vec(), list.to_vec());
            let answer = side.mend(&mut image, good, &mut list);
            (answer, image, list)
        });
        let lent = tested.1 == plain.1 && tested.2 == plain.2;
        let words = (good, list.len());
        self.compare(Call::Mend, [&tested.0, &plain.0], lent, &[image], &words);
        let answer = plain.0;
        if answer.number != 0 || answer.count > 0 {
            self.count_headed(answer, image);
        }
        for row in rows(answer, image, good, list.len()) {
            self.tally.answered(Call::Mend, row);
        }
    }

    /// Rows of the header of an image that was changed, and the numbers of refusals.
    fn count_headed(&mut self, answer: Mended, image: &[u8]) {
        let head = plain::header(image);
        let verdict = Verdict {
            number: answer.number,
            place: answer.place,
            capacity: head.capacity,
            grain_size: head.grain_size,
        };
        self.count_accepted(Call::Mend, verdict, image);
    }
}

/// Rows, and whether they hold.
type Rows = Vec<(&'static str, bool)>;

/// The rows of an answer, with a list of so many words.
pub fn rows(answer: Mended, image: &[u8], good: u64, room: usize) -> Vec<&'static str> {
    let rows = match (answer.number, answer.count) {
        (0, 0) => vec![("nothing to mend", true)],
        (0, _) => mended(image, good, room),
        (8, _) => vec![("8, 40 too", image[48..56] == [0; 8])],
        (21, _) => short(image, good, room),
        (40, _) => unmended(image, good, room),
        _ => vec![],
    };
    let those = rows.into_iter().filter(|(_, holds)| *holds);
    those.map(|(row, _)| row).collect()
}

/// Rows of an image in which something was changed.
fn mended(image: &[u8], good: u64, room: usize) -> Rows {
    let changes = differing(image, good);
    let head = plain::header(image);
    let last = (head.capacity - 1) / head.grain_size;
    let has = |is: &dyn Fn(&Change) -> bool| changes.iter().any(is);
    let before = plain::check(image).number;
    let two_tables = has(&|change| change[0] / 512 != changes[0][0] / 512);
    let of_one = has(&|change| change[1..].contains(&1));
    vec![
        ("written, exact room", room == 3 * changes.len()),
        ("written, room left", room > 3 * changes.len()),
        ("mended, primary", good == 0),
        ("mended, redundant", good == 1),
        ("mended, good above 1", good > 1),
        ("mended from 9", before == 9),
        ("mended from 10", before == 10),
        ("mended from 11", before == 11),
        ("mended, two tables", two_tables),
        (
            "mended, tables turned",
            two_tables && !ascending(image, good),
        ),
        ("mended, last grain", has(&|change| change[0] == last)),
        ("mended, last entry", has(&|change| change[0] % 512 == 511)),
        ("mended, unused differ", unused_differ(image, good)),
        (
            "mended, zero byte",
            has(&|change| alike_as_text(change[1], change[2])),
        ),
        ("mended, 1 for zeros", of_one && one_is_zero(image)),
        ("mended, 1 for sector", of_one && !one_is_zero(image)),
    ]
}

fn short(image: &[u8], good: u64, room: usize) -> Rows {
    let needed = 3 * differing(image, good).len();
    vec![
        ("21, a word short", room + 1 == needed),
        ("21, a change short", room + 3 == needed),
        ("21, no list", room == 0),
    ]
}

/// Rows of refusal 40: the first of its parts that holds.
fn unmended(image: &[u8], good: u64, room: usize) -> Rows {
    if image[48..56] == [0; 8] {
        return vec![("40, one directory", true)];
    }
    let places = other_places(image, one_is_zero(image));
    if !places.is_empty() {
        return vec![
            ("40, zeros and absent", places.contains(&[0, 1])),
            ("40, zeros and a table", places.contains(&[1, 2])),
            ("40, absent and a table", places.contains(&[0, 2])),
        ];
    }
    let changed = changed(image, good);
    let after = plain::check(&changed).number;
    if frame_meets(image) {
        return vec![
            ("40, areas meet", after != 0),
            ("40, areas meet alone", after == 0),
        ];
    }
    let met = if after == 12 { met(&changed) } else { "" };
    vec![
        ("40, 9 after", after == 9),
        ("40, 10 after", after == 10),
        // The rest of the frame does not meet.
        ("40, 12 by descriptor", !["", LAST, GRAIN].contains(&met)),
        ("40, 12 by last sector", met == LAST),
        ("40, 12 by a grain", met == GRAIN),
        ("40, one way only", answers(image, u64::from(good == 0))),
        ("40, 21 too", room < 3 * differing(image, good).len()),
    ]
}

/// Whether an image can be mended from a side.
fn answers(image: &[u8], good: u64) -> bool {
    let mut list = vec![0; 3 * differing(image, good).len()];
    plain::mend(&mut image.to_vec(), good, &mut list).number == 0
}

const LAST: &str = "12, last sector";
const GRAIN: &str = "12, grain";

/// Which area of an image that is refused 12 is the first to meet an earlier one.
fn met(image: &[u8]) -> &'static str {
    let mut list = vec![0; image.len() / 512 / 64 + 1];
    that_meets(image, plain::check_in(image, &mut list).marked)
}

/// Mending of an image, and of one whose sides differ, from both; now and then of one with a table on its directories.
pub fn case(run: &mut Run, rng: &mut Rng, image: &[u8]) {
    let side = rng.below(2);
    ask(run, rng, image, side);
    let torn = torn(rng).bytes;
    for side in [0, 1] {
        ask(run, rng, &torn, side);
    }
    if rng.one_in(8) {
        let table = on_directories(rng);
        for side in [0, 1] {
            ask(run, rng, &table, side);
        }
    }
}

/// Asks for mending from a side, with a list that holds any words.
fn ask(run: &mut Run, rng: &mut Rng, image: &[u8], side: u64) {
    let good = match side {
        0 => 0,
        _ => rng.pick(&[1, 1, 1, 2, 256, 1 << 32, u64::MAX]),
    };
    let two = image.starts_with(b"KDMV") && !areas(image).is_empty() && image[48..56] != [0; 8];
    let needed = if two {
        3 * differing(image, good).len()
    } else {
        0
    };
    let room = room(rng, needed as u64);
    let list: Vec<u64> = (0..room).map(|_| rng.any()).collect();
    run.mend(image, good, &list);
}
