//! Request A1: how full images are, row by row, and a tally of refusals. Refusals 24, then 21.

use crate::answers::{refusal, Refusal, Surveyed};
use crate::chain::parts;
use crate::check::accept;
use crate::image::{Entry, Image};

const MOST_IMAGES: usize = 1024;
const ROW_WORDS: usize = 6;
/// The tally's words: refusal numbers 1 to 63.
const TALLY_WORDS: usize = 63;

/// Grains by kind, in a row's order: stored, zero, absent, packed.
pub type Counts = [u64; 4];
/// An image's row: its counts, and its refusal's number and place.
type Row = [u64; ROW_WORDS];

/// The public call: the rows, one after the other, and the tally; words past them, or on a refusal all, keep what they held.
pub fn survey(images: &[u8], lengths: &[u64], rows: &mut [u64], tally: &mut [u64]) -> Surveyed {
    let found = match survey_rows(images, lengths, rows.len(), tally.len()) {
        Ok(found) => found,
        Err(refusal) => {
            return Surveyed {
                number: refusal.number,
                place: refusal.place,
                ..Surveyed::default()
            }
        }
    };
    let words = found.concat();
    rows[..words.len()].copy_from_slice(&words);
    tally[..TALLY_WORDS].fill(0);
    let mut totals = Surveyed::default();
    for [stored, zero, absent, packed, number, _] in found {
        if number == 0 {
            totals.stored += stored;
            totals.zero += zero;
            totals.absent += absent;
            totals.packed += packed;
        } else {
            tally[number as usize - 1] += 1;
        }
    }
    totals
}

/// The rows of all images, for lists of these lengths.
fn survey_rows(
    images: &[u8],
    lengths: &[u64],
    rows: usize,
    tally: usize,
) -> Result<Vec<Row>, Refusal> {
    let images = parts(images, lengths, MOST_IMAGES).ok_or_else(|| refusal(24))?;
    if rows < ROW_WORDS * images.len() || tally < TALLY_WORDS {
        return Err(refusal(21));
    }
    Ok(images.into_iter().map(row).collect())
}

fn row(bytes: &[u8]) -> Row {
    match accept(bytes) {
        Ok(image) => {
            let [stored, zero, absent, packed] = counts(&image);
            [stored, zero, absent, packed, 0, 0]
        }
        Err(refusal) => [0, 0, 0, 0, refusal.number, refusal.place],
    }
}

/// An accepted image's grains, by kind. A directory entry that names no table stands for all its grains.
pub fn counts(image: &Image) -> Counts {
    let mut counts = Counts::default();
    let mut add = |entry, grains| match entry {
        Entry::Sector(_) if image.header.packed() => counts[3] += grains,
        Entry::Sector(_) => counts[0] += grains,
        Entry::Zero => counts[1] += grains,
        Entry::Absent => counts[2] += grains,
    };
    let directory = image.directory(image.header.directory);
    for (index, entry) in directory.into_iter().enumerate() {
        let grains = image.grains_of(index as u64);
        match entry {
            Entry::Sector(table) => {
                for grain in grains {
                    add(image.grain_entry(table, grain), 1);
                }
            }
            none => add(none, grains.end - grains.start),
        }
    }
    counts
}
