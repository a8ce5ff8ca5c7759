//! How full images are: grains by kind, image by image and in all.

use crate::{raw, Refusal};

/// More images are refused, whatever the lists.
const MOST_IMAGES: usize = 1024;

/// Words of the raw list for each image.
const WORDS: usize = 6;

/// Words of the raw tally: a refusal's number is 1 to 63.
const NUMBERS: usize = 63;

/// Grains of each kind.
#[derive(Clone, Copy, Debug, Default, PartialEq, Eq, Hash)]
pub struct Counts {
    /// Those that stand in the file.
    pub stored: u64,
    /// Those that read as zeros.
    pub zero: u64,
    /// Those of which the image says nothing.
    pub absent: u64,
    /// Those that are packed.
    pub packed: u64,
}

/// How many images a number refuses.
#[derive(Clone, Copy, Debug, PartialEq, Eq, Hash)]
pub struct Tallied {
    /// The refusal's number.
    pub number: u64,
    /// At least one.
    pub images: u64,
}

/// What a survey says.
#[derive(Clone, Debug, PartialEq, Eq, Hash)]
pub struct Survey {
    /// One for each image, in their order: its grains, or why the check refuses it.
    pub rows: Vec<Result<Counts, Refusal>>,
    /// The sums over the accepted images.
    pub totals: Counts,
    /// The numbers that refuse an image, ascending.
    pub tally: Vec<Tallied>,
}

impl Counts {
    /// All grains.
    pub fn grains(&self) -> u64 {
        self.stored + self.zero + self.absent + self.packed
    }
}

fn row(words: &[u64]) -> Result<Counts, Refusal> {
    Refusal::unless_zero(words[4], words[5])?;
    Ok(Counts {
        stored: words[0],
        zero: words[1],
        absent: words[2],
        packed: words[3],
    })
}

/// Checks 1 to 1,024 images, and counts the grains of those that are accepted. `images` has them end to end, and `lengths` their
/// lengths in bytes.
///
/// The four counts of an image add up to its grains, and each is the number of grains for which [`lookup`](crate::lookup) gives
/// that kind.
///
/// Refusal: 24 for the lengths. What the check refuses an image for stands in its row. [`raw::survey`] takes lists of the
/// caller's instead, and refuses 21 if one of them is too short.
///
/// It needs [`STACK`](crate::STACK) bytes of stack.
///
#[doc = concat!("```\n", include_str!("../examples/survey.rs"), "```")]
pub fn survey(images: &[u8], lengths: &[u64]) -> Result<Survey, Refusal> {
    let mut rows = vec![0; lengths.len().min(MOST_IMAGES) * WORDS];
    let mut tally = [0; NUMBERS];
    let surveyed = raw::survey(images, lengths, &mut rows, &mut tally);
    Refusal::unless_zero(surveyed.number, surveyed.place)?;
    let tallied = (1..).zip(tally);
    Ok(Survey {
        rows: rows.chunks_exact(WORDS).map(row).collect(),
        totals: Counts {
            stored: surveyed.stored,
            zero: surveyed.zero,
            absent: surveyed.absent,
            packed: surveyed.packed,
        },
        tally: tallied
            .map(|(number, images)| Tallied { number, images })
            .filter(|tallied| tallied.images > 0)
            .collect(),
    })
}
