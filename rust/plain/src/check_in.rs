//! Request A6: the check in a lent list, with the number of sectors marked. Refusals: the header's, 8 to 11, then 21, then 12.
//!
//! Areas are compared as the check without a list compares them, so that the list is written and never read.

use crate::answers::{refusal, Marked, Refusal};
use crate::check::{judge_apart, laid_out, Sectors};
use crate::image::Image;
use crate::numbers::up;

/// File sectors for each word of the list.
const WORD: u64 = 64;

/// The public call: on acceptance and 12 the needed words become 0; all others, or on other refusals all, keep what they held.
pub fn check_in(bytes: &[u8], list: &mut [u64]) -> Marked {
    let (image, areas) = match judged(bytes) {
        Ok(found) => found,
        Err(refusal) => return refused(refusal, &[]),
    };
    let needed = up(image.sectors(), WORD) as usize;
    if list.len() < needed {
        return refused(refusal(21), &[]);
    }
    list[..needed].fill(0);
    match judge_apart(areas.clone()) {
        Ok(()) => Marked {
            capacity: image.header.capacity,
            grain_size: image.header.grain_size,
            marked: total(&areas),
            ..Marked::default()
        },
        Err(refusal) => refused(refusal, before_meeting(&areas)),
    }
}

/// The image and its areas, if it meets every rule but 12.
fn judged(bytes: &[u8]) -> Result<(Image<'_>, Vec<Sectors>), Refusal> {
    let image = Image::judged(bytes)?;
    let areas = laid_out(&image)?;
    Ok((image, areas))
}

/// A refusal after these areas were marked.
fn refused(refusal: Refusal, areas: &[Sectors]) -> Marked {
    Marked {
        number: refusal.number,
        place: refusal.place,
        marked: total(areas),
        ..Marked::default()
    }
}

fn total(areas: &[Sectors]) -> u64 {
    areas.iter().map(|(_, sectors)| sectors).sum()
}

/// The areas before the first one that meets an earlier one: the longest start of the list that 12 lets pass.
fn before_meeting(areas: &[Sectors]) -> &[Sectors] {
    let lengths: Vec<usize> = (1..=areas.len()).collect();
    // A start that is refused stays so however it goes on, so the lengths that pass come before all others.
    let passing = lengths.partition_point(|length| judge_apart(areas[..*length].to_vec()).is_ok());
    &areas[..passing]
}

#[cfg(test)]
mod tests {
    use super::{before_meeting, total, Sectors};
    use crate::check::tests::scattered;
    use std::collections::HashSet;

    /// The same number, counted sector by sector.
    fn counted(areas: &[Sectors]) -> u64 {
        let mut taken = HashSet::new();
        for (first, sectors) in areas {
            if (*first..first + sectors).any(|sector| taken.contains(&sector)) {
                break;
            }
            taken.extend(*first..first + sectors);
        }
        taken.len() as u64
    }

    #[test]
    fn starts_agree_with_a_set_of_sectors() {
        let (mut state, mut lengths) = (7, [0; 9]);
        for _ in 0..5000 {
            let areas = scattered(&mut state, 8);
            let start = before_meeting(&areas);
            lengths[start.len()] += 1;
            assert_eq!(total(start), counted(&areas), "{areas:?}");
        }
        // The first area never meets an earlier one; each other one is the first to now and then, and sometimes none is.
        assert_eq!(lengths[0], 0);
        assert!(lengths[1..].iter().all(|count| *count > 10), "{lengths:?}");
    }
}
