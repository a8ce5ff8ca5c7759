//! Request A7: one directory's tables mended from the other's. Refusals: the header's, 8, then 40, then 21.

use crate::answers::{refusal, Mended, Refusal};
use crate::check::{check, judge_apart, Sectors};
use crate::frame::{areas, framed, Group};
use crate::image::Image;
use crate::numbers::put32;

/// `good` where the primary side is; any other number says that the redundant one is.
const PRIMARY: u64 = 0;

/// The public call: the list starts with three words for each entry that differed; its other words, and every byte of the image
/// but those entries, keep what they held. On a refusal all do.
pub fn mend(image: &mut [u8], good: u64, changes: &mut [u64]) -> Mended {
    match mended(image, good, changes.len()) {
        Ok((bytes, words)) => {
            image.copy_from_slice(&bytes);
            changes[..words.len()].copy_from_slice(&words);
            Mended {
                count: words.len() as u64 / 3,
                ..Mended::default()
            }
        }
        Err(refusal) => Mended {
            number: refusal.number,
            place: refusal.place,
            count: 0,
        },
    }
}

/// The changed image, and what a list of `room` words is to start with.
fn mended(bytes: &[u8], good: u64, room: usize) -> Result<(Vec<u8>, Vec<u64>), Refusal> {
    let image = framed(bytes)?;
    let (changed, words) = changed_copy(&image, good).ok_or_else(|| refusal(40))?;
    if check(&changed).number != 0 {
        return Err(refusal(40));
    }
    if room < words.len() {
        return Err(refusal(21));
    }
    Ok((changed, words))
}

/// A copy with the good side's entries in the other side's tables, and the words of the list. Nothing where the directories
/// don't pair their tables, or where two areas meet that say what is copied, and where to.
fn changed_copy(image: &Image, good: u64) -> Option<(Vec<u8>, Vec<u64>)> {
    let pairs = image.pairs()?;
    judge_apart(decisive(image)).ok()?;
    let mut changed = image.bytes.to_vec();
    let mut words = Vec::new();
    for pair in pairs {
        let (from, to) = if good == PRIMARY {
            (pair.primary, pair.redundant)
        } else {
            (pair.redundant, pair.primary)
        };
        for grain in pair.grains {
            let old = image.grain_number(to, grain);
            let new = image.grain_number(from, grain);
            if old != new {
                put32(&mut changed, image.grain_entry_at(to, grain), new);
                words.extend([grain, old, new]);
            }
        }
    }
    Some((changed, words))
}

/// Header, footer, directories and tables: the descriptor and the last sector are left to the check of the changed image.
fn decisive(image: &Image) -> Vec<Sectors> {
    let mut decisive = Vec::new();
    for area in areas(image) {
        if !matches!(area.group, Group::Descriptor | Group::LastSector) {
            decisive.push((area.first, area.sectors));
        }
    }
    decisive
}
