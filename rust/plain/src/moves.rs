//! Request A9: COWD to KDMV and back, from the check of either kind (request A13). Refusals: its own, 23, 27, 44, then 21.

use crate::answers::{refusal, Refusal, Written};
use crate::check::accept_either;
use crate::header::Kind;
use crate::image::Image;
use crate::layout::laid_down;
use crate::survey::counts;
use crate::write::{judge_clean, judge_unpacked, over};

/// The least grain size of KDMV.
const LEAST_GRAIN: u64 = 8;

/// The public call: a COWD image as document 01's collapsed image. Bytes past the result, or all on a refusal, keep what they
/// held.
pub fn to_kdmv(image: &[u8], out: &mut [u8]) -> Written {
    over(kdmv(image, out.len()), out)
}

/// The public call: a KDMV image as a COWD normal form. Bytes past the result, or all on a refusal, keep what they held.
pub fn to_cowd(image: &[u8], out: &mut [u8]) -> Written {
    over(cowd(image, out.len()), out)
}

fn kdmv(bytes: &[u8], room: usize) -> Result<Vec<u8>, Refusal> {
    let image = accept_either(bytes)?;
    judge_kind(&image, Kind::Cowd)?;
    judge_clean(&image)?;
    if image.header.grain_size < LEAST_GRAIN {
        return Err(refusal(44));
    }
    laid_down(&[image], Kind::Kdmv, room)
}

fn cowd(bytes: &[u8], room: usize) -> Result<Vec<u8>, Refusal> {
    let image = accept_either(bytes)?;
    judge_kind(&image, Kind::Kdmv)?;
    judge_unpacked(&image)?;
    judge_clean(&image)?;
    let [_, zero, _, _] = counts(&image);
    if zero != 0 {
        return Err(refusal(44));
    }
    laid_down(&[image], Kind::Cowd, room)
}

/// Refusal 23 of what is not of the kind that a move starts from.
fn judge_kind(image: &Image, kind: Kind) -> Result<(), Refusal> {
    if image.header.kind != kind {
        return Err(refusal(23));
    }
    Ok(())
}
