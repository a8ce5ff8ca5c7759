//! The full check in memory that the caller lends.

use crate::{raw, Disk, Refusal, SECTOR};
use std::error::Error;
use std::fmt;

/// Sectors of the file for each word of the list.
const WORD: u64 = 64;

/// What the check in a lent list says of an image that it accepts.
#[derive(Clone, Copy, Debug, PartialEq, Eq, Hash)]
pub struct Marked {
    /// What [`check`](crate::check) says.
    pub disk: Disk,
    /// Sectors of all its areas, never more than the file has.
    pub marked: u64,
}

/// A refusal of the check in a lent list, and how far it came.
#[derive(Clone, Copy, Debug, PartialEq, Eq, Hash)]
pub struct MarkedRefusal {
    /// Why.
    pub refusal: Refusal,
    /// On refusal 12 the sectors of the areas before the first one that meets an earlier one, else 0.
    pub marked: u64,
}

impl fmt::Display for MarkedRefusal {
    fn fmt(&self, to: &mut fmt::Formatter) -> fmt::Result {
        self.refusal.fmt(to)?;
        match self.refusal.number {
            12 => write!(to, " ({} sectors were marked before)", self.marked),
            _ => Ok(()),
        }
    }
}

impl Error for MarkedRefusal {}

/// The words that [`check_in`] needs for a file of so many bytes: one for every 64 sectors, rounded up.
pub fn words_needed(length: u64) -> u64 {
    let sectors = length / SECTOR;
    sectors / WORD + u64::from(sectors % WORD != 0)
}

/// The full check of one image, as [`check`](crate::check) has it, with its marks in a list of the caller's: one word for
/// every 64 sectors of the file, rounded up, as [`words_needed`] says. What they hold before does not count.
///
/// Areas are marked in this order: header, descriptor, directory, redundant directory, primary tables, redundant tables,
/// footer, last sector, grains, each group in the order of its entries. The number of sectors marked is that of all areas, or
/// on refusal 12 of those before the first one that meets an earlier one.
///
/// Refusals: 1 to 11 and 43 as the check has them, then 21 for a list that is too short, then 12. After acceptance and 12 the
/// words that are needed are 0; on every other refusal they keep what they held. Words past those are never written.
///
/// It needs less than 16 KiB of stack, whatever the image.
///
#[doc = concat!("```\n", include_str!("../examples/check_in.rs"), "```")]
pub fn check_in(image: &[u8], list: &mut [u64]) -> Result<Marked, MarkedRefusal> {
    let said = raw::check_in(image, list);
    let marked = said.marked;
    Refusal::unless_zero(said.number, said.place)
        .map_err(|refusal| MarkedRefusal { refusal, marked })?;
    Ok(Marked {
        disk: Disk {
            capacity: said.capacity,
            grain_size: said.grain_size,
        },
        marked,
    })
}
