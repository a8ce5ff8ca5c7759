//! The collapsed image: collapse and normal form.

use crate::answers::{refusal, Refusal, Written};
use crate::check::accept;
use crate::header::Kind;
use crate::image::Image;
use crate::layout::laid_down;

/// Normal form: the bytes of the result, for an output of `room` bytes.
pub fn normal(image: &[u8], room: usize) -> Result<Vec<u8>, Refusal> {
    let image = accept(image)?;
    judge_unpacked(&image)?;
    judge_clean(&image)?;
    laid_down(&[image], Kind::Kdmv, room)
}

/// Collapse: the bytes of the result, for an output of `room` bytes.
pub fn collapse(lower: &[u8], upper: &[u8], room: usize) -> Result<Vec<u8>, Refusal> {
    let lower = accept(lower)?;
    let upper = accept(upper)?;
    judge_unpacked(&lower)?;
    judge_unpacked(&upper)?;
    if lower.header.capacity != upper.header.capacity
        || lower.header.grain_size != upper.header.grain_size
    {
        return Err(refusal(22));
    }
    judge_clean(&lower)?;
    judge_clean(&upper)?;
    laid_down(&[upper, lower], Kind::Kdmv, room)
}

/// The answer, and the result in place in the output: bytes past it, or all on a refusal, keep what they held.
pub fn over(result: Result<Vec<u8>, Refusal>, out: &mut [u8]) -> Written {
    match result {
        Ok(bytes) => {
            out[..bytes.len()].copy_from_slice(&bytes);
            Written {
                length: bytes.len() as u64,
                ..Written::default()
            }
        }
        Err(refusal) => Written {
            number: refusal.number,
            place: refusal.place,
            length: 0,
        },
    }
}

/// Refusal 23 of what does not unpack.
pub fn judge_unpacked(image: &Image) -> Result<(), Refusal> {
    if image.header.packed() {
        return Err(refusal(23));
    }
    Ok(())
}

/// Refusal 27: a disk that was still open is not made to look finished.
pub fn judge_clean(image: &Image) -> Result<(), Refusal> {
    if image.header.dirty != 0 {
        return Err(refusal(27));
    }
    Ok(())
}
