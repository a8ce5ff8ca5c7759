//! Streams that broke off.

use crate::{raw, Refusal};

/// What is kept of a stream that broke off.
#[derive(Clone, Copy, Debug, PartialEq, Eq, Hash)]
pub struct Closed {
    /// Sectors of the file, from its first on: up to the end of the last whole grain.
    pub sectors: u64,
    /// Whole grains among them.
    pub grains: u64,
    /// Bytes of the tail.
    pub length: u64,
}

impl Closed {
    /// The part of `image` that is kept: the tail goes behind it.
    pub fn kept<'a>(&self, image: &'a [u8]) -> &'a [u8] {
        &image[..(self.sectors * crate::SECTOR) as usize]
    }
}

/// Writes the tail that closes a stream that broke off, over the start of `out`, and says what of the stream is kept. The bytes after
/// the tail keep what they held; after a refusal all do.
///
/// What is kept and the tail behind it are an image that [`check`](crate::check) accepts. It serves the kept grains, each from where it
/// stood, and all others are absent. A whole stream is a start too.
///
/// Refusals: 1 to 6 and 43 as the check has them; 41 where the directory is not at the end or there is a redundant one, for
/// over 2^31 sectors, where the header's overhead, from which on grains stand, is under 2 or past the end, and where a descriptor
/// has one number only or does not lie between header and overhead; 21 where `out` is too short.
///
#[doc = concat!("```\n", include_str!("../examples/close.rs"), "```")]
pub fn close(image: &[u8], out: &mut [u8]) -> Result<Closed, Refusal> {
    let closed = raw::close(image, out);
    Refusal::unless_zero(closed.number, closed.place)?;
    Ok(Closed {
        sectors: closed.sectors,
        grains: closed.grains,
        length: closed.length,
    })
}
