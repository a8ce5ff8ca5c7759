//! Request A11: whether an image meets the lab profile. Refusals: the image's check, 23, 27, 47, then 42.

use crate::answers::{refusal, Refusal, Verdict};
use crate::check::{accept, verdict};
use crate::header::Kind;
use crate::image::Image;
use crate::layout::laid_down;
use crate::write::{judge_clean, judge_unpacked};

/// The one grain size, of which capacity is a multiple.
const GRAIN_SIZE: u64 = 128;

/// The public call, which answers as the check does.
pub fn profile(bytes: &[u8]) -> Verdict {
    verdict(published(bytes))
}

/// The image, if it is its own normal form and has the profile's sizes.
fn published(bytes: &[u8]) -> Result<Image<'_>, Refusal> {
    let image = accept(bytes)?;
    judge_unpacked(&image)?;
    judge_clean(&image)?;
    if image.header.grain_size != GRAIN_SIZE || image.header.capacity % GRAIN_SIZE != 0 {
        return Err(refusal(47));
    }
    let form = laid_down(&[image], Kind::Kdmv, usize::MAX)?;
    match first_difference(bytes, &form) {
        None => Ok(image),
        Some(place) => Err(Refusal { number: 42, place }),
    }
}

/// The first byte in which the two differ: where one is a start of the other, the byte that it ends before.
fn first_difference(bytes: &[u8], form: &[u8]) -> Option<u64> {
    let differs = bytes.iter().zip(form).position(|(one, other)| one != other);
    match differs {
        Some(at) => Some(at as u64),
        None if bytes.len() == form.len() => None,
        None => Some(bytes.len().min(form.len()) as u64),
    }
}
