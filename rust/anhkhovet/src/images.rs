//! Whole images: the full check, the lab profile and the header.

use crate::{raw, Refusal};

/// What every layer of a disk has in common.
#[derive(Clone, Copy, Debug, PartialEq, Eq, Hash)]
pub struct Disk {
    /// Sectors of the virtual disk, 1 to 2^31.
    pub capacity: u64,
    /// Sectors of a grain, a power of two, at most 2,048.
    pub grain_size: u64,
}

/// What a header says.
#[derive(Clone, Copy, Debug, PartialEq, Eq, Hash)]
pub struct Header {
    /// The disk's size and that of its grains.
    pub disk: Disk,
    /// First sector of the descriptor inside the image, as the header names it: nothing says yet that it lies in the file.
    pub descriptor: u64,
    /// Sectors of the descriptor; both numbers are 0 where there is none.
    pub descriptor_sectors: u64,
    /// The dirty number: 0 where the disk was closed, any other number where it was still open. Collapse and normal form refuse such an
    /// image, 27; nothing else asks for it.
    pub dirty: u64,
}

impl Header {
    /// Whether the disk was still open when the image was copied.
    pub fn still_open(&self) -> bool {
        self.dirty != 0
    }
}

/// The full check of one image: every layout rule, over every sector.
///
/// Refusals: 1 to 12, the first that applies; 8 names the [part](crate::MisplacedPart) that sticks out, 9 and 10 the grain. A
/// COWD image is 43, right after 2, in every call that judges a header: only [`to_kdmv`](crate::to_kdmv) and
/// [`to_cowd`](crate::to_cowd) judge it by its own rules.
///
/// It needs [`STACK`](crate::STACK) bytes of stack; [`check_in`](crate::check_in) does with little.
///
#[doc = concat!("```\n", include_str!("../examples/check.rs"), "```")]
pub fn check(image: &[u8]) -> Result<Disk, Refusal> {
    disk(raw::check(image))
}

/// Whether an image meets the lab profile, the one form of what is published: accepted KDMV, uncompressed, clean, with grain size
/// 128 and a capacity that is a multiple of 128, and equal to its own [`normal`](crate::normal) form in every byte and in length.
///
/// A [`collapse`](crate::collapse) of two such images of one capacity meets it too.
///
/// Refusals: 1 to 12 and 43 as the check has them, 23 for packed images, 27 where the disk was still open, 47 for grain size or
/// capacity, 42 with the first byte that differs from the normal form; where one is a start of the other that is the shorter length.
/// The stored grains of an image are not read.
///
/// It needs [`STACK`](crate::STACK) bytes of stack.
///
#[doc = concat!("```\n", include_str!("../examples/profile.rs"), "```")]
pub fn profile(image: &[u8]) -> Result<Disk, Refusal> {
    disk(raw::profile(image))
}

fn disk(verdict: raw::Verdict) -> Result<Disk, Refusal> {
    Refusal::unless_zero(verdict.number, verdict.place)?;
    Ok(Disk {
        capacity: verdict.capacity,
        grain_size: verdict.grain_size,
    })
}

/// The header alone, and the footer where the header asks for one.
///
/// Refusals: 1 to 7 and 43, as the check has them.
///
#[doc = concat!("```\n", include_str!("../examples/header.rs"), "```")]
pub fn header(image: &[u8]) -> Result<Header, Refusal> {
    let head = raw::header(image);
    Refusal::unless_zero(head.number, head.place)?;
    Ok(Header {
        disk: Disk {
            capacity: head.capacity,
            grain_size: head.grain_size,
        },
        descriptor: head.descriptor,
        descriptor_sectors: head.descriptor_sectors,
        dirty: head.dirty,
    })
}
