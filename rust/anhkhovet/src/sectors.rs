//! Single sectors: where they come from, and their bytes.

use crate::{raw, ChainRefusal, Refusal};
use std::ops::Range;

/// Where a virtual sector comes from, inside one image.
#[derive(Clone, Copy, Debug, PartialEq, Eq, Hash)]
pub enum Source {
    /// The image says nothing: its parent is asked, and without one the sector reads as zeros.
    Absent,
    /// It reads as zeros, whatever a parent has.
    Zero,
    /// It stands in the file.
    Stored {
        /// The file's sector.
        sector: u64,
    },
    /// It is in a grain that is packed: a marker of 12 bytes, then the payload, which unpacked is the whole grain.
    Packed {
        /// The file's sector at which the marker is.
        sector: u64,
        /// Bytes of the payload.
        size: u64,
        /// The number, from 0, of the virtual sector in its grain.
        offset: u64,
    },
}

/// Where a virtual sector comes from, inside a chain.
#[derive(Clone, Copy, Debug, PartialEq, Eq, Hash)]
pub struct Located {
    /// The layer, from 0 at the base.
    pub layer: u64,
    /// The source in this layer.
    pub source: Source,
}

impl Source {
    pub(crate) fn of(located: &raw::Located) -> Source {
        Source::from_numbers(located.kind, located.sector, located.size, located.offset)
    }

    pub(crate) fn from_numbers(kind: u64, sector: u64, size: u64, offset: u64) -> Source {
        match kind {
            0 => Source::Absent,
            1 => Source::Zero,
            2 => Source::Stored { sector },
            3 => Source::Packed {
                sector,
                size,
                offset,
            },
            kind => unreachable!("the library's contract has no kind {kind}"),
        }
    }
}

/// Where virtual sector `sector` of one image comes from.
///
/// Judged is what the answer needs: the header, the directory's place, and the table and the grain that the sector leads to. So
/// an image that [`check`](crate::check) refuses may have answers here; in an accepted one every sector below capacity has one.
///
/// Refusals: 1 to 7 and 43 as the check has them, 20, 8, 9, 10, in this order; 8 is the directory's or a primary table's, never
/// another part's.
///
#[doc = concat!("```\n", include_str!("../examples/lookup.rs"), "```")]
pub fn lookup(image: &[u8], sector: u64) -> Result<Source, Refusal> {
    let located = raw::lookup(image, sector);
    Refusal::unless_zero(located.number, located.place)?;
    Ok(Source::of(&located))
}

/// Where virtual sector `sector` of a chain comes from: the topmost layer in which it is not absent, else layer 0 and absent.
///
/// `layers` has 1 to 16 images end to end, base first, and `lengths` their lengths in bytes.
///
/// Refusals: 24 for the count or the lengths; then each header from the top down, 1 to 7 and 43; 22 where the layers are not
/// of one capacity and grain size; 20; then 8 to 10 of each layer that is met on the way down, as the lookup has them.
///
#[doc = concat!("```\n", include_str!("../examples/chain.rs"), "```")]
pub fn chain(layers: &[u8], lengths: &[u64], sector: u64) -> Result<Located, ChainRefusal> {
    let located = raw::chain(layers, lengths, sector);
    let layer = located.layer;
    Refusal::unless_zero(located.number, located.place)
        .map_err(|refusal| ChainRefusal { refusal, layer })?;
    Ok(Located {
        layer,
        source: Source::of(&located),
    })
}

/// The bytes behind a sector's source, as a part of the image: 512 of a stored sector, the payload of a packed grain, none where
/// it is absent, zero or refused, which [`lookup`] tells apart.
///
#[doc = concat!("```\n", include_str!("../examples/read.rs"), "```")]
pub fn read(image: &[u8], sector: u64) -> &[u8] {
    &image[read_part(image, sector)]
}

/// The place, in bytes of the image, of what [`read`] hands over.
///
/// It does not depend on those bytes: they may be other ones in the image that is asked, and be read from elsewhere.
pub fn read_part(image: &[u8], sector: u64) -> Range<usize> {
    let part = raw::read_part(image, sector);
    let from = part.at as usize;
    from..from + part.length as usize
}
