//! How a lookup comes to its answer, step by step.

use crate::{raw, Refusal, Source};
use std::error::Error;
use std::fmt;

/// An entry of the directory or of a table, as it stands in the file.
#[derive(Clone, Copy, Debug, PartialEq, Eq, Hash)]
pub struct Step {
    /// Its first byte in the file.
    pub at: u64,
    /// The number that its four bytes are.
    pub entry: u64,
}

/// What stands on the way to a sector's source, as far as the lookup comes.
#[derive(Clone, Copy, Debug, PartialEq, Eq, Hash)]
pub struct Way {
    /// Whether an entry of 1 means zeros in this image; else it is file sector 1.
    pub one_is_zero: bool,
    /// The grain of the sector.
    pub grain: u64,
    /// The directory's entry; none where the directory is misplaced.
    pub directory: Option<Step>,
    /// The table's entry; none where the directory's names no table, or one that is past the end of the file.
    pub table: Option<Step>,
}

/// A lookup's answer, and the way to it.
#[derive(Clone, Copy, Debug, PartialEq, Eq, Hash)]
pub struct Steps {
    /// The entries that decide.
    pub way: Way,
    /// What [`lookup`](crate::lookup) answers.
    pub source: Source,
}

/// A lookup's refusal, and how far it came.
#[derive(Clone, Copy, Debug, PartialEq, Eq, Hash)]
pub struct StepsRefusal {
    /// Why.
    pub refusal: Refusal,
    /// On 8, 9 and 10; all others come before the grain is known.
    pub way: Option<Way>,
}

impl fmt::Display for StepsRefusal {
    fn fmt(&self, to: &mut fmt::Formatter) -> fmt::Result {
        self.refusal.fmt(to)
    }
}

impl Error for StepsRefusal {}

impl Way {
    fn of(told: &raw::Steps) -> Way {
        // No entry stands in the first sector, which is the header's.
        let step = |at: u64, entry: u64| (at != 0).then_some(Step { at, entry });
        Way {
            one_is_zero: told.one_is_zero != 0,
            grain: told.grain,
            directory: step(told.directory_at, told.directory_entry),
            table: step(told.table_at, told.table_entry),
        }
    }
}

/// How [`lookup`](crate::lookup) comes to its answer for virtual sector `sector`: what an entry of 1 means, the sector's grain, and the
/// entries of directory and table with their places in the file.
///
/// Refusals are the lookup's. On 8, 9 and 10 the way is told as far as it goes.
///
#[doc = concat!("```\n", include_str!("../examples/steps.rs"), "```")]
pub fn steps(image: &[u8], sector: u64) -> Result<Steps, StepsRefusal> {
    let told = raw::steps(image, sector);
    let way = Way::of(&told);
    Refusal::unless_zero(told.number, told.place).map_err(|refusal| StepsRefusal {
        refusal,
        way: matches!(refusal.number, 8..=10).then_some(way),
    })?;
    Ok(Steps {
        way,
        source: Source::from_numbers(told.kind, told.sector, told.size, told.offset),
    })
}
