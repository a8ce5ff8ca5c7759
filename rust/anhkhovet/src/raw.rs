//! The calls with their answers as document 01's numbers: number 0 is an answer, and what does not apply is 0. The place of 8 is 1
//! to 5, as [`MisplacedPart`](crate::MisplacedPart) has the parts; that of 42 is a byte of the file.
//!
//! Each `unsafe` below rests on the same ground: a slice's pointer and count describe memory that is lent for the call,
//! shared or exclusive as the slice is, and the library keeps neither. Lent bytes stand still for the call, as Rust asks of every
//! slice: a mapping of a file that another program writes is not such a slice.

use crate::face;

pub use face::{
    Closed, Described, Extent, Found, Framed, Head, Located, Marked, Mended, Part, Steps, Surveyed,
    Verdict, Written,
};

/// The full check: refusals 1 to 12 and 43, or capacity and grain size.
///
/// It needs [`STACK`](crate::STACK) bytes of stack.
pub fn check(image: &[u8]) -> Verdict {
    // SAFETY: see the top of the file.
    unsafe { face::anhkhovet_check(image.as_ptr(), image.len()) }
}

/// The full check with its marks in a list of the caller's, one word for every 64 sectors of the file, rounded up: refusals 1
/// to 11, then 21 for a list that is too short, then 12. It needs less than 16 KiB of stack.
///
/// Whatever the list held does not count. After acceptance and 12 the words that are needed are 0; on every other refusal they
/// keep what they held, as the rest of the list does always.
pub fn check_in(image: &[u8], list: &mut [u64]) -> Marked {
    // SAFETY: see the top of the file.
    unsafe { face::anhkhovet_check_in(image.as_ptr(), image.len(), list.as_mut_ptr(), list.len()) }
}

/// Whether an image meets the lab profile: refusals 1 to 12 and 43 as the check has them, 23, 27, 47, 42, or capacity and grain
/// size.
///
/// It needs [`STACK`](crate::STACK) bytes of stack.
pub fn profile(image: &[u8]) -> Verdict {
    // SAFETY: see the top of the file.
    unsafe { face::anhkhovet_profile(image.as_ptr(), image.len()) }
}

/// The header alone: refusals 1 to 7 and 43.
pub fn header(image: &[u8]) -> Head {
    // SAFETY: see the top of the file.
    unsafe { face::anhkhovet_header(image.as_ptr(), image.len()) }
}

/// Where virtual sector `sector` comes from.
pub fn lookup(image: &[u8], sector: u64) -> Located {
    // SAFETY: see the top of the file.
    unsafe { face::anhkhovet_lookup(image.as_ptr(), image.len(), sector) }
}

/// How the lookup comes to where virtual sector `sector` comes from.
pub fn steps(image: &[u8], sector: u64) -> Steps {
    // SAFETY: see the top of the file.
    unsafe { face::anhkhovet_steps(image.as_ptr(), image.len(), sector) }
}

/// Where virtual sector `sector` of a chain comes from: layers end to end, base first, and their lengths.
pub fn chain(layers: &[u8], lengths: &[u64], sector: u64) -> Located {
    // SAFETY: see the top of the file.
    unsafe {
        face::anhkhovet_chain(
            layers.as_ptr(),
            layers.len(),
            lengths.as_ptr(),
            lengths.len(),
            sector,
        )
    }
}

/// The grain reader: 512 bytes of a stored sector, the payload of a packed grain, else an empty part.
pub fn read_part(image: &[u8], sector: u64) -> Part {
    // SAFETY: see the top of the file.
    unsafe { face::anhkhovet_read(image.as_ptr(), image.len(), sector) }
}

/// Tells the areas of an image but its grains, three words each, over the start of `list`.
pub fn frame(image: &[u8], list: &mut [u64]) -> Framed {
    // SAFETY: see the top of the file.
    unsafe { face::anhkhovet_frame(image.as_ptr(), image.len(), list.as_mut_ptr(), list.len()) }
}

/// Counts the grains of up to 1,024 images that lie end to end, kind by kind. Over the start of `rows` go six words an image:
/// stored, zero, absent, packed, number, place; over that of `tally` 63 words, word i being how many images number i + 1 refuses.
///
/// It needs [`STACK`](crate::STACK) bytes of stack.
pub fn survey(images: &[u8], lengths: &[u64], rows: &mut [u64], tally: &mut [u64]) -> Surveyed {
    // SAFETY: see the top of the file.
    unsafe {
        face::anhkhovet_survey(
            images.as_ptr(),
            images.len(),
            lengths.as_ptr(),
            lengths.len(),
            rows.as_mut_ptr(),
            rows.len(),
            tally.as_mut_ptr(),
            tally.len(),
        )
    }
}

/// Overwrites the entries in use of one directory's tables with those of the other's, in the lent image, if the image so changed
/// would be accepted: refusals 1 to 8 and 43, 40, then 21 for the list. `good` is the side that stays: 0 the primary one, any
/// other number the redundant one. Over the start of `changes` go three words for each entry that differed: grain, old entry, new entry.
///
/// On a refusal image and list keep what they held. It needs [`STACK`](crate::STACK) bytes of stack.
pub fn mend(image: &mut [u8], good: u64, changes: &mut [u64]) -> Mended {
    // SAFETY: see the top of the file.
    unsafe {
        face::anhkhovet_mend(
            image.as_mut_ptr(),
            image.len(),
            good,
            changes.as_mut_ptr(),
            changes.len(),
        )
    }
}

/// Writes the normal form of an image over the start of `out`.
///
/// It needs [`STACK`](crate::STACK) bytes of stack.
pub fn normal(image: &[u8], out: &mut [u8]) -> Written {
    // SAFETY: see the top of the file.
    unsafe { face::anhkhovet_normal(image.as_ptr(), image.len(), out.as_mut_ptr(), out.len()) }
}

/// Writes the collapse of two images over the start of `out`.
///
/// It needs [`STACK`](crate::STACK) bytes of stack.
pub fn collapse(lower: &[u8], upper: &[u8], out: &mut [u8]) -> Written {
    // SAFETY: see the top of the file.
    unsafe {
        face::anhkhovet_collapse(
            lower.as_ptr(),
            lower.len(),
            upper.as_ptr(),
            upper.len(),
            out.as_mut_ptr(),
            out.len(),
        )
    }
}

/// Writes a COWD image as a KDMV one, in normal form, over the start of `out`.
///
/// It needs [`STACK`](crate::STACK) bytes of stack.
pub fn to_kdmv(image: &[u8], out: &mut [u8]) -> Written {
    // SAFETY: see the top of the file.
    unsafe { face::anhkhovet_to_kdmv(image.as_ptr(), image.len(), out.as_mut_ptr(), out.len()) }
}

/// Writes a KDMV image as a COWD one, in normal form, over the start of `out`.
///
/// It needs [`STACK`](crate::STACK) bytes of stack.
pub fn to_cowd(image: &[u8], out: &mut [u8]) -> Written {
    // SAFETY: see the top of the file.
    unsafe { face::anhkhovet_to_cowd(image.as_ptr(), image.len(), out.as_mut_ptr(), out.len()) }
}

/// Writes the tail that closes a start of a stream over the start of `out`: refusals 1 to 6 and 43, 41, then 21. The first
/// `sectors` x 512 bytes of `image` and the tail after them are an image.
pub fn close(image: &[u8], out: &mut [u8]) -> Closed {
    // SAFETY: see the top of the file.
    unsafe { face::anhkhovet_close(image.as_ptr(), image.len(), out.as_mut_ptr(), out.len()) }
}

/// Reads a descriptor and stores its extents at the start of the lent list.
pub fn descriptor(text: &[u8], extents: &mut [Extent]) -> Described {
    // SAFETY: see the top of the file.
    unsafe {
        face::anhkhovet_descriptor(
            text.as_ptr(),
            text.len(),
            extents.as_mut_ptr(),
            extents.len(),
        )
    }
}

/// The first record of the list that holds `sector`.
pub fn find(extents: &[Extent], sector: u64) -> Found {
    // SAFETY: see the top of the file.
    unsafe { face::anhkhovet_find(extents.as_ptr(), extents.len(), sector) }
}

/// Where virtual sector `sector` of a disk of several files comes from: its descriptor's text, the files of the extents end to end
/// in the order of their lines, and a length for each extent, 0 for ZERO. The answer's `layer` is the extent.
///
/// It needs [`STACK`](crate::STACK) bytes of stack.
pub fn split(text: &[u8], files: &[u8], lengths: &[u64], sector: u64) -> Located {
    // SAFETY: see the top of the file.
    unsafe {
        face::anhkhovet_split(
            text.as_ptr(),
            text.len(),
            files.as_ptr(),
            files.len(),
            lengths.as_ptr(),
            lengths.len(),
            sector,
        )
    }
}
