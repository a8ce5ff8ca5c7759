//! The survey on both sides: images of all kinds end to end, in lists of every length about the needed ones.

use crate::cases::{gone, made};
use crate::frames::room;
use crate::image::{anywhere, Plan};
use crate::lists;
use crate::rng::Rng;
use crate::run::Run;
use crate::tally::Call;
use plain::{Surveyed, Verdict};

/// The words of a row, and of the tally.
const ROW: usize = 6;
const TALLY: usize = 63;
/// How many images of a list are made; more are some of these again, or have few bytes.
const MADE: u64 = 8;

impl Run<'_> {
    /// Both sides' lists hold the same words before, and are compared word for word after.
    pub fn survey(&mut self, images: &[u8], lengths: &[u64], rows: &[u64], tally: &[u64]) {
        let lists = || [rows.to_vec(), tally.to_vec()];
        let mut lent = [lists(), lists()];
        let answers = [0, 1].map(|side: usize| {
            let [rows, tally] = &mut lent[side];
            self.sides[side].survey(images, lengths, rows, tally)
        });
        let same = lent[0] == lent[1];
        let differing = if same { &[] } else { &lent[..] };
        let words = (lengths, rows.len(), tally.len(), differing);
        let both = [&answers[0], &answers[1]];
        self.compare(Call::Survey, both, same, &[images], &words);
        if answers[1].number != 0 {
            self.tally.refused(Call::Survey, answers[1].number, 0);
            return;
        }
        self.count_rows(images, lengths, &lent[1][0]);
        let exact = rows.len() == ROW * lengths.len() && tally.len() == TALLY;
        self.count_surveyed(answers[1], lengths, exact);
    }

    /// Rows of each image, as the check has them: by what its header has, or its refusal.
    fn count_rows(&mut self, images: &[u8], lengths: &[u64], words: &[u64]) {
        let mut rest = images;
        for (length, row) in lengths.iter().zip(words.chunks(ROW)) {
            let (image, after) = rest.split_at(*length as usize);
            rest = after;
            let head = plain::header(image);
            let verdict = Verdict {
                number: row[4],
                place: row[5],
                capacity: head.capacity,
                grain_size: head.grain_size,
            };
            self.count_accepted(Call::Survey, verdict, image);
            if verdict.number == 0 {
                self.count_ones(Call::Survey, verdict, image);
            }
        }
    }

    /// Rows of a survey, by its totals, its images and whether both lists are just long enough.
    fn count_surveyed(&mut self, totals: Surveyed, lengths: &[u64], exact: bool) {
        let rows = [
            ("stored", totals.stored > 0),
            ("zero", totals.zero > 0),
            ("absent", totals.absent > 0),
            ("packed", totals.packed > 0),
            ("image of no bytes", lengths.contains(&0)),
            ("1,024 images", lengths.len() == 1024),
            ("written, exact room", exact),
            ("written, room left", !exact),
        ];
        for (row, holds) in rows {
            if holds {
                self.tally.answered(Call::Survey, row);
            }
        }
    }
}

/// A list of images in lists just long enough, then in some of any length, and last with lengths that do not fit.
pub fn case(run: &mut Run, rng: &mut Rng, which: u64) {
    let (images, mut lengths) = images(rng, which);
    let needed = ROW * lengths.len();
    lend(run, rng, &images, &lengths, [needed, TALLY]);
    for _ in 0..4 {
        ask(run, rng, &images, &lengths);
    }
    lists::damage_lengths(rng, &mut lengths);
    ask(run, rng, &images, &lengths);
}

/// Asks for the survey in lists of which one or both have any length.
pub fn ask(run: &mut Run, rng: &mut Rng, images: &[u8], lengths: &[u64]) {
    let mut rooms = [ROW * lengths.len(), TALLY];
    let any = rng.within(1, 3);
    for (bit, length) in [1, 2].into_iter().zip(&mut rooms) {
        if any & bit != 0 {
            *length = room(rng, *length as u64) as usize;
        }
    }
    lend(run, rng, images, lengths, rooms);
}

/// Lists of these lengths hold any words.
fn lend(run: &mut Run, rng: &mut Rng, images: &[u8], lengths: &[u64], rooms: [usize; 2]) {
    let [rows, tally] = rooms.map(|room| (0..room).map(|_| rng.any()).collect::<Vec<u64>>());
    run.survey(images, lengths, &rows, &tally);
}

/// Images end to end in any order, and their lengths.
fn images(rng: &mut Rng, which: u64) -> (Vec<u8>, Vec<u64>) {
    let count = count(rng, which);
    let mut parts: Vec<Vec<u8>> = (0..count.min(MADE))
        .map(|number| image(rng, which + number))
        .collect();
    while (parts.len() as u64) < count {
        let again = rng.index(MADE as usize);
        let short = parts[again].len() < 1 << 16;
        let part = if short && rng.one_in(64) {
            parts[again].clone()
        } else {
            few_bytes(rng)
        };
        parts.push(part);
    }
    rng.shuffle(&mut parts);
    let lengths = parts.iter().map(|part| part.len() as u64).collect();
    (parts.concat(), lengths)
}

/// How many images: a few mostly, seldom none, as many as are allowed, or one more.
fn count(rng: &mut Rng, which: u64) -> u64 {
    match which % 32 {
        3 => 1024,
        11 => 1025,
        19 => 0,
        27 => rng.within(6, 40),
        _ => rng.within(1, 5),
    }
}

/// An image of any kind, sound or damaged.
fn image(rng: &mut Rng, which: u64) -> Vec<u8> {
    let plan = Plan {
        most_sectors: rng.pick(&[40, 40, 130]),
        ..Plan::default()
    };
    match rng.below(12) {
        0 => few_bytes(rng),
        1 => anywhere(rng, false),
        2 => gone(rng, plan, which).bytes,
        _ => {
            let damages = rng.pick(&[0, 1, 1, 1, 2]);
            made(rng, plan, which, damages).bytes
        }
    }
}

/// No byte, or the first few of a header.
fn few_bytes(rng: &mut Rng) -> Vec<u8> {
    let magic = rng.pick(&[b"KDMV", b"COWD", b"VMDK"]);
    let length = rng.pick(&[0, 0, 3, 4]);
    magic[..length].to_vec()
}
