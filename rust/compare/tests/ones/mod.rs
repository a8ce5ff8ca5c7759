//! Mistakes about an entry of 1: what a side answers that takes it for zeros, or for a sector, in the wrong images.

use crate::miscounts::directory;
use crate::Mistake::{self, *};
use compare::side::{Plain, Side};
use plain::{Located, Verdict, ZERO};
use std::borrow::Cow;

impl Mistake {
    /// The image as the side takes it.
    pub fn seen<'a>(&self, image: &'a [u8]) -> Cow<'a, [u8]> {
        match (self, header(image)) {
            (ZerosByVersion, Some((2 | 3, false))) => changed(image, [2, 4]).into(),
            (ZerosByFlag, Some((1, true))) => changed(image, [2, 4]).into(),
            (FlagInVersion1, Some((1, true))) => changed(image, [1, 0]).into(),
            _ => image.into(),
        }
    }

    /// The answer on copies, where a table at sector 1 is taken for zeros.
    pub fn judge_copies(&self, verdict: Verdict, image: &[u8]) -> Verdict {
        match (self, verdict.number, header(image)) {
            (OldZerosIn11, 0, Some((_, false))) => Plain.check(&changed(image, [2, 4])),
            _ => verdict,
        }
    }

    /// The source of a sector, by directories where 1 is always a sector.
    pub fn locate(&self, located: Located, image: &[u8], sector: u64) -> Located {
        let in_directory = || directory_entry_is_1(image, sector);
        match (self, located.kind) {
            (ZerosInTablesOnly, ZERO) if in_directory() => {
                Plain.lookup(&changed(image, [2, 0]), sector)
            }
            _ => located,
        }
    }
}

/// Version, and whether flag 0x4 is set, of a KDMV image.
fn header(image: &[u8]) -> Option<(u8, bool)> {
    let kdmv = image.len() >= 512 && image.starts_with(b"KDMV");
    kdmv.then(|| (image[4], image[8] & 4 != 0))
}

/// Whether an entry of 1 is zeros in an accepted image.
pub fn one_is_zero(image: &[u8]) -> bool {
    matches!(header(image), Some((2 | 3, true)))
}

/// A KDMV image with another version, and with flag 0x4 or without it; its footer alike.
fn changed(image: &[u8], [version, flag]: [u8; 2]) -> Vec<u8> {
    let mut image = image.to_vec();
    let footer = (image.len() / 512).saturating_sub(2) * 512;
    let alike = image[56..64] == [255; 8] && image[4..12] == image[footer + 4..footer + 12];
    for start in if alike { vec![0, footer] } else { vec![0] } {
        let header = &mut image[start..];
        header[4] = version;
        header[8] = header[8] & !4 | flag;
    }
    image
}

fn directory_entry_is_1(image: &[u8], sector: u64) -> bool {
    let verdict = Plain.check(image);
    if verdict.number != 0 {
        return false;
    }
    let index = sector / (512 * verdict.grain_size);
    image[directory(image)..].chunks(4).nth(index as usize) == Some(&[1, 0, 0, 0])
}
