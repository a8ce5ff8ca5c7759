//! The frame: what of an image decides, as a list of areas.

use crate::{raw, Refusal};

/// Room for this many areas is tried first: more than small disks have.
const FEW: usize = 64;

/// Words of the raw list for each area.
const WORDS: usize = 3;

/// What an area of the frame holds.
#[derive(Clone, Copy, Debug, PartialEq, Eq, Hash)]
pub enum Group {
    /// One sector.
    Header,
    /// The text inside the image.
    Descriptor,
    /// The directory that lookups go by.
    Directory,
    /// Its copy.
    RedundantDirectory,
    /// A table that the directory names.
    PrimaryTable,
    /// A table that the copy names.
    RedundantTable,
    /// The header once more, near the end of a stream, which says where the directory is.
    Footer,
    /// The sector after the footer, the file's last one.
    LastSector,
}

/// Some sectors of the file in a row.
#[derive(Clone, Copy, Debug, PartialEq, Eq, Hash)]
pub struct Area {
    /// What it holds.
    pub group: Group,
    /// Its first sector in the file.
    pub first: u64,
    /// At least one.
    pub sectors: u64,
}

impl Group {
    fn of(number: u64) -> Group {
        match number {
            1 => Group::Header,
            2 => Group::Descriptor,
            3 => Group::Directory,
            4 => Group::RedundantDirectory,
            5 => Group::PrimaryTable,
            6 => Group::RedundantTable,
            7 => Group::Footer,
            8 => Group::LastSector,
            _ => unreachable!("the library's contract has no group {number}"),
        }
    }
}

impl Area {
    fn of(words: &[u64]) -> Area {
        Area {
            group: Group::of(words[0]),
            first: words[1],
            sectors: words[2],
        }
    }
}

/// The areas of an image but its grains, all of them inside the file: group by group in the order of [`Group`], and the tables
/// of a directory in the order of its entries.
///
/// Two images of one length that agree on the sectors of the one's frame have the same check, the same lookups and the same
/// length in normal form; for packed images they have to agree on the 12 marker bytes of each grain too. `crates/laws` proves it.
///
/// Refusals: 1 to 8 and 43, as the check has them. [`raw::frame`] takes a list of the caller's instead, and refuses 21 if it is too
/// short.
///
#[doc = concat!("```\n", include_str!("../examples/frame.rs"), "```")]
pub fn frame(image: &[u8]) -> Result<Vec<Area>, Refusal> {
    let mut room = FEW;
    loop {
        let mut list = vec![0; room * WORDS];
        let framed = raw::frame(image, &mut list);
        match Refusal::unless_zero(framed.number, framed.place) {
            Err(Refusal { number: 21, .. }) => room *= 2,
            Err(refusal) => return Err(refusal),
            Ok(()) => {
                let words = list.chunks_exact(WORDS).take(framed.count as usize);
                return Ok(words.map(Area::of).collect());
            }
        }
    }
}
