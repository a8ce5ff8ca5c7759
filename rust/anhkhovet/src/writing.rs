//! Images that are written into lent memory.

use crate::{raw, Refusal};

/// Writes an image's normal form over the start of `out`, and says how many bytes it has. The bytes after it keep what they held;
/// after a refusal all do.
///
/// Two images that read alike, grain by grain and kind by kind, have the same normal form.
///
/// Refusals: 1 to 12 and 43 as the check has them, 23 for packed images, 27 where the disk was still open, 21 where `out` is
/// too short.
///
/// It needs [`STACK`](crate::STACK) bytes of stack.
///
#[doc = concat!("```\n", include_str!("../examples/normal.rs"), "```")]
pub fn normal(image: &[u8], out: &mut [u8]) -> Result<u64, Refusal> {
    length(raw::normal(image, out))
}

/// Writes one image that reads as `upper` on top of `lower` does, in normal form, over the start of `out`, and says how many
/// bytes it has. The bytes after it keep what they held; after a refusal all do.
///
/// Refusals: 1 to 12 and 43 of `lower`, then of `upper`, as the check has them; 23 for packed images; 22 where the two are
/// not of one capacity and grain size; 27 where one was still open; 21 where `out` is too short.
///
/// It needs [`STACK`](crate::STACK) bytes of stack.
///
#[doc = concat!("```\n", include_str!("../examples/collapse.rs"), "```")]
pub fn collapse(lower: &[u8], upper: &[u8], out: &mut [u8]) -> Result<u64, Refusal> {
    length(raw::collapse(lower, upper, out))
}

/// Writes a COWD image as a KDMV one, in normal form, over the start of `out`, and says how many bytes it has. The bytes after it
/// keep what they held; after a refusal all do.
///
/// Each sector keeps its kind and its bytes. [`to_cowd`] of the result is the COWD normal form of `image`.
///
/// Refusals: 1 to 12, by the rules of the image's own kind; then 23 for KDMV, 27 where the disk was still open, 44 for a grain
/// size under 8, which KDMV does not have, 21 where `out` is too short.
///
/// It needs [`STACK`](crate::STACK) bytes of stack.
///
#[doc = concat!("```\n", include_str!("../examples/to_kdmv.rs"), "```")]
pub fn to_kdmv(image: &[u8], out: &mut [u8]) -> Result<u64, Refusal> {
    length(raw::to_kdmv(image, out))
}

/// Writes a KDMV image as a COWD one, in normal form, over the start of `out`, and says how many bytes it has. The bytes after it
/// keep what they held; after a refusal all do.
///
/// Each sector keeps its kind and its bytes. [`to_kdmv`] of the result is the [`normal`] form of `image`.
///
/// Refusals: 1 to 12, by the rules of the image's own kind; then 23 for COWD and packed images, 27 where the disk was still
/// open, 44 where a grain is marked as zeros, which COWD has no entry for, 21 where `out` is too short.
///
/// It needs [`STACK`](crate::STACK) bytes of stack.
///
#[doc = concat!("```\n", include_str!("../examples/to_cowd.rs"), "```")]
pub fn to_cowd(image: &[u8], out: &mut [u8]) -> Result<u64, Refusal> {
    length(raw::to_cowd(image, out))
}

fn length(written: raw::Written) -> Result<u64, Refusal> {
    Refusal::unless_zero(written.number, written.place)?;
    Ok(written.length)
}
