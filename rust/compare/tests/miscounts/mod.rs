//! Surveys with mistakes in their lists or numbers, among them what is left out of an image's row, in the row's order.

use crate::ones::one_is_zero;
use crate::wrapped;
use crate::Mistake::{self, *};
use compare::side::{Plain, Side};
use plain::{Surveyed, ABSENT, PACKED, STORED};

/// Stored, zero, absent, packed.
pub type Counts = [u64; 4];

impl Mistake {
    pub fn survey_wrongly(
        self,
        images: &[u8],
        lengths: &[u64],
        rows: &mut [u64],
        tally: &mut [u64],
    ) -> Surveyed {
        let before = tally.to_vec();
        let mut surveyed = Plain.survey(images, lengths, rows, tally);
        match (self, surveyed.number) {
            (NumberAtItsOwnWord, 0) => tally[..63].rotate_right(1),
            (TallyAddedTo, 0) => {
                for (word, held) in tally[..63].iter_mut().zip(before) {
                    *word = word.wrapping_add(held);
                }
            }
            (WordPastTheRows, 0) => rows[6 * lengths.len()..].fill(0),
            (ListsBefore21, 21) => {
                rows.fill(0);
                tally.fill(0);
            }
            (OneImageTooMany, 24) if lengths.len() == 1025 => surveyed.number = 21,
            (SumThatWraps, 24) if wrapped(lengths) == images.len() as u64 => surveyed.number = 21,
            (_, 0) => self.miscount(images, lengths, rows, &mut surveyed),
            _ => {}
        }
        surveyed
    }

    /// Grains left out of accepted images' rows and the totals, or a refused image's in the totals.
    fn miscount(self, images: &[u8], lengths: &[u64], rows: &mut [u64], totals: &mut Surveyed) {
        let parts = parts(images, lengths);
        for (image, row) in parts.into_iter().zip(rows.chunks_mut(6)) {
            let lost = match (self, row[4]) {
                (LastGrainLeftOut, 0) => last_grain(image),
                (EntryAsOneGrain, 0) => without_table(image),
                (RefusedInTotals, 8..=12) => {
                    totals.absent += 1;
                    continue;
                }
                _ => continue,
            };
            for (count, lost) in row.iter_mut().zip(lost) {
                *count -= lost;
            }
            totals.stored -= lost[0];
            totals.zero -= lost[1];
            totals.absent -= lost[2];
            totals.packed -= lost[3];
        }
    }
}

/// The images of a list, or the files of a disk.
pub fn parts<'a>(images: &'a [u8], lengths: &[u64]) -> Vec<&'a [u8]> {
    let mut rest = images;
    let mut parts = Vec::new();
    for length in lengths {
        let (part, after) = rest.split_at(*length as usize);
        parts.push(part);
        rest = after;
    }
    parts
}

/// The last grain, where capacity ends inside it.
pub fn last_grain(image: &[u8]) -> Counts {
    let head = Plain.header(image);
    let mut lost = Counts::default();
    if head.capacity % head.grain_size != 0 {
        let column = match Plain.lookup(image, head.capacity - 1).kind {
            STORED => 0,
            ABSENT => 2,
            PACKED => 3,
            _ => 1,
        };
        lost[column] = 1;
    }
    lost
}

/// All grains but one of each directory entry that names no table.
pub fn without_table(image: &[u8]) -> Counts {
    let head = Plain.header(image);
    let mut left = (head.capacity + head.grain_size - 1) / head.grain_size;
    let mut lost = Counts::default();
    for entry in image[directory(image)..].chunks_exact(4) {
        let grains = left.min(512);
        match entry {
            _ if left == 0 => break,
            [0, 0, 0, 0] => lost[2] += grains - 1,
            [1, 0, 0, 0] if one_is_zero(image) => lost[1] += grains - 1,
            _ => {}
        }
        left -= grains;
    }
    lost
}

/// Where the directory starts, as the frame tells.
pub fn directory(image: &[u8]) -> usize {
    let mut areas = vec![0; 3 * 4096];
    let framed = Plain.frame(image, &mut areas);
    assert_eq!(framed.number, 0);
    let area = areas.chunks(3).find(|area| area[0] == 3).unwrap();
    area[1] as usize * 512
}
