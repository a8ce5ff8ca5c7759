//! One directory's tables mended from the other's.

use crate::{raw, Refusal};

/// Words of the list for each change.
pub const CHANGE: usize = 3;

/// One of an image's two directories, with its tables.
#[derive(Clone, Copy, Debug, PartialEq, Eq, Hash)]
pub enum Side {
    /// That which lookups go by.
    Primary,
    /// Its copy.
    Redundant,
}

/// An entry of a table that was changed.
#[derive(Clone, Copy, Debug, PartialEq, Eq, Hash)]
pub struct Change {
    /// The grain that the entry is for.
    pub grain: u64,
    /// What it held.
    pub old: u64,
    /// What it holds now, as the good side does: 0 for absent, 1 where that means zeros, else a sector of the file.
    pub new: u64,
}

impl Side {
    fn number(self) -> u64 {
        match self {
            Side::Primary => 0,
            Side::Redundant => 1,
        }
    }
}

impl Change {
    fn of(words: &[u64]) -> Change {
        Change {
            grain: words[0],
            old: words[1],
            new: words[2],
        }
    }
}

/// Overwrites every entry in use of one side's tables with that of the good side, in the lent image, and says how many of them
/// differed. Their changes stand over the start of `list`, [`CHANGE`] words each, in ascending order of the grains; [`changes`]
/// reads them.
///
/// It is done only if the image so changed is accepted by [`check`](crate::check), and no other byte of it changes. The words
/// after the last change keep what they held; after a refusal image and list do wholly. Where nothing differs the answer is 0.
///
/// Refusals: 1 to 8 and 43 as the check has them; 40 where there is no redundant directory, where the two directories do not hold 0, 1
/// and tables in the same places, where two of header, footer, directories and tables meet, or where the image would be refused
/// after the change; 21 where the list is too short. An image has at most as many changes as grains.
///
/// It needs [`STACK`](crate::STACK) bytes of stack.
///
#[doc = concat!("```\n", include_str!("../examples/mend.rs"), "```")]
pub fn mend(image: &mut [u8], good: Side, list: &mut [u64]) -> Result<u64, Refusal> {
    let mended = raw::mend(image, good.number(), list);
    Refusal::unless_zero(mended.number, mended.place)?;
    Ok(mended.count)
}

/// The first `count` changes of a list that [`mend`] has written.
pub fn changes(list: &[u64], count: u64) -> impl Iterator<Item = Change> + '_ {
    let words = list.chunks_exact(CHANGE);
    words.take(count as usize).map(Change::of)
}
