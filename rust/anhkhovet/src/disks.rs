//! Disks cut into several files: a descriptor, and the files of its extents.

use crate::{raw, Refusal, Source};
use std::error::Error;
use std::fmt;

/// Where a virtual sector comes from, inside a disk of several files.
#[derive(Clone, Copy, Debug, PartialEq, Eq, Hash)]
pub struct Placed {
    /// The extent, from 0 in the order of the descriptor's lines.
    pub extent: u64,
    /// The source in this extent's file.
    pub source: Source,
}

/// A refusal of a disk of several files, and the extent that was met.
#[derive(Clone, Copy, Debug, PartialEq, Eq, Hash)]
pub struct SplitRefusal {
    /// Why.
    pub refusal: Refusal,
    /// The sector's own extent, from 0; 0 also where the descriptor or the whole disk is refused.
    pub extent: u64,
}

impl SplitRefusal {
    /// The extent at fault; none where the descriptor or the whole disk is refused.
    pub fn extent_at_fault(&self) -> Option<u64> {
        match self.refusal.number {
            20 | 24 | 30..=36 => None,
            _ => Some(self.extent),
        }
    }
}

impl fmt::Display for SplitRefusal {
    fn fmt(&self, to: &mut fmt::Formatter) -> fmt::Result {
        if let Some(extent) = self.extent_at_fault() {
            write!(to, "extent {extent}: ")?;
        }
        self.refusal.fmt(to)
    }
}

impl Error for SplitRefusal {}

/// Where virtual sector `sector` of a disk of several files comes from.
///
/// `text` is the descriptor, `files` has the files of its extents end to end, in the order of their lines, and `lengths` a length
/// in bytes for each extent, 0 for ZERO. Only the sector's own file is judged. A stored sector is counted from the start of
/// that file, the offset of a FLAT or VMFS line included.
///
/// Refusals: the descriptor's, 30 to 36; 24 for the lengths; 20; then of the sector's own extent 39 for NOACCESS, 43 for
/// VMFSSPARSE by the line alone, whatever its file holds, 45 for a COWD file under SPARSE or a file too short for its line, what
/// [`check`](crate::check) refuses its image for, and 38 where the image's capacity is not the line's.
///
/// It needs [`STACK`](crate::STACK) bytes of stack.
///
#[doc = concat!("```\n", include_str!("../examples/split.rs"), "```")]
pub fn split(
    text: &[u8],
    files: &[u8],
    lengths: &[u64],
    sector: u64,
) -> Result<Placed, SplitRefusal> {
    let located = raw::split(text, files, lengths, sector);
    let extent = located.layer;
    Refusal::unless_zero(located.number, located.place)
        .map_err(|refusal| SplitRefusal { refusal, extent })?;
    Ok(Placed {
        extent,
        source: Source::of(&located),
    })
}
