//! The full check: the header's refusals, then 8 to 12, each over the whole image before the next.

use crate::answers::{refusal, Refusal, Verdict};
use crate::frame::{self, judge_areas};
use crate::image::{Entry, Image};

/// The sectors of an area: the first, and how many.
pub type Sectors = (u64, u64);

/// The public call.
pub fn check(bytes: &[u8]) -> Verdict {
    verdict(accept(bytes))
}

/// The answer in numbers.
pub fn verdict(judged: Result<Image, Refusal>) -> Verdict {
    match judged {
        Ok(image) => Verdict {
            capacity: image.header.capacity,
            grain_size: image.header.grain_size,
            ..Verdict::default()
        },
        Err(refusal) => Verdict {
            number: refusal.number,
            place: refusal.place,
            ..Verdict::default()
        },
    }
}

/// The KDMV image, if it meets every rule.
pub fn accept(bytes: &[u8]) -> Result<Image<'_>, Refusal> {
    accepted(Image::judged(bytes)?)
}

/// The image of either kind, if it meets every rule of its own: the check that the moves keep.
pub fn accept_either(bytes: &[u8]) -> Result<Image<'_>, Refusal> {
    accepted(Image::judged_either(bytes)?)
}

fn accepted(image: Image) -> Result<Image, Refusal> {
    judge_apart(laid_out(&image)?)?;
    Ok(image)
}

/// The image's areas in request A6's order, if it passes 8 to 11.
pub fn laid_out(image: &Image) -> Result<Vec<Sectors>, Refusal> {
    judge_areas(image)?;
    let grains = grains(image);
    for (grain, at) in &grains {
        image.judge_past(*grain, *at)?;
    }
    for (grain, at) in &grains {
        image.judge_marker(*grain, *at)?;
    }
    judge_copies(image)?;
    Ok(areas(image, &grains))
}

/// Every grain that the primary tables name, with its sector, in virtual order. Needs 8 passed.
fn grains(image: &Image) -> Vec<(u64, u64)> {
    let mut grains = Vec::new();
    let directory = image.directory(image.header.directory);
    for (index, entry) in directory.into_iter().enumerate() {
        if let Entry::Sector(table) = entry {
            for grain in image.grains_of(index as u64) {
                if let Entry::Sector(at) = image.grain_entry(table, grain) {
                    grains.push((grain, at));
                }
            }
        }
    }
    grains
}

/// Refusal 11: the redundant directory has absent, zero and tables where the primary has, and equal tables.
fn judge_copies(image: &Image) -> Result<(), Refusal> {
    if image.header.redundant == 0 {
        return Ok(());
    }
    for pair in image.pairs().ok_or_else(|| refusal(11))? {
        for grain in pair.grains {
            if image.grain_entry(pair.primary, grain) != image.grain_entry(pair.redundant, grain) {
                return Err(refusal(11));
            }
        }
    }
    Ok(())
}

/// Every area of the image: the frame's, then the grains in virtual order.
fn areas(image: &Image, grains: &[(u64, u64)]) -> Vec<Sectors> {
    let mut areas = Vec::new();
    for area in frame::areas(image) {
        areas.push((area.first, area.sectors));
    }
    for (_, at) in grains {
        areas.push((*at, image.grain_sectors(*at)));
    }
    areas
}

/// Refusal 12. In order of first sectors, two areas share a sector exactly if some area reaches the next one's first.
pub fn judge_apart(mut areas: Vec<Sectors>) -> Result<(), Refusal> {
    areas.sort_unstable();
    if areas
        .windows(2)
        .any(|pair| pair[0].0 + pair[0].1 > pair[1].0)
    {
        return Err(refusal(12));
    }
    Ok(())
}

#[cfg(test)]
pub mod tests {
    use super::{judge_apart, Sectors};
    use std::collections::HashSet;

    /// Some areas below sector 71, other ones for each state.
    pub fn scattered(state: &mut u64, count: usize) -> Vec<Sectors> {
        let mut areas = Vec::new();
        for _ in 0..count {
            *state = state.wrapping_mul(6364136223846793005).wrapping_add(1);
            areas.push((*state >> 58, 1 + (*state >> 50) % 7));
        }
        areas
    }

    /// The same question, asked sector by sector.
    fn shared(areas: &[Sectors]) -> bool {
        let mut taken = HashSet::new();
        areas
            .iter()
            .any(|(first, sectors)| (*first..first + sectors).any(|sector| !taken.insert(sector)))
    }

    #[test]
    fn intervals_agree_with_a_set_of_sectors() {
        let (mut state, mut clashes) = (7, 0);
        for _ in 0..5000 {
            let areas = scattered(&mut state, 6);
            clashes += u32::from(shared(&areas));
            let refused = judge_apart(areas.clone()).is_err();
            assert_eq!(refused, shared(&areas), "{areas:?}");
        }
        assert!(clashes > 500 && clashes < 4900, "{clashes}");
    }
}
