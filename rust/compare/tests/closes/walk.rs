//! The walk of a closing with a mistake.

use super::{Mistake, Mistake::*};

/// What is kept: up to which sector, each grain's number and its marker's sector, and how many blocks were met.
pub struct Kept {
    pub sectors: u64,
    pub grains: Vec<(u64, u64)>,
    pub blocks: u64,
}

/// A number of a start; 0 past its end.
pub fn number(image: &[u8], at: u64, length: usize) -> u64 {
    let at = usize::try_from(at).unwrap_or(usize::MAX);
    let bytes = image.get(at..at.saturating_add(length)).unwrap_or(&[]);
    let add = |value: u64, byte: &u8| value << 8 | u64::from(*byte);
    bytes.iter().rev().fold(0, add)
}

/// Sectors of the directory.
pub fn directory_sectors(image: &[u8]) -> u64 {
    let table = 512 * number(image, 20, 8);
    let entries = (number(image, 12, 8) - 1) / table + 1;
    (entries - 1) / 128 + 1
}

impl Mistake {
    pub fn walked(self, image: &[u8]) -> Kept {
        let overhead = number(image, 64, 8);
        let mut kept = Kept {
            sectors: overhead,
            grains: Vec::new(),
            blocks: 0,
        };
        let sectors = match self {
            SectorMoreThanF => image.len() as u64 / 512 + 1,
            LastSectorLeft => (image.len() as u64 / 512).saturating_sub(1),
            _ => image.len() as u64 / 512,
        };
        let mut at = match self {
            KeptFromF => overhead + overhead % 2,
            _ => overhead,
        };
        while at < sectors {
            let size = number(image, at * 512 + 8, 4);
            let grain = size > 0 && !(self == TypeBeforeSize && is_other(image, at));
            let next = match self.block(image, at, grain) {
                Some(next) if next <= sectors || self.lets_cut(image, at, grain) => next,
                _ => break,
            };
            if grain {
                match self.grain(image, at, &kept) {
                    Some(number) => kept.grains.push((number, at)),
                    None if self == StopsSkipped => {
                        at = next;
                        continue;
                    }
                    None => break,
                }
            }
            let table = number(image, at * 512 + 12, 4) == 1;
            let to_table = self == KeptToTable && table;
            if grain || to_table || self == KeptToLastBlock {
                kept.sectors = next.min(image.len() as u64 / 512);
            }
            kept.blocks += 1;
            at = next;
        }
        kept
    }

    /// The end of the block at a sector; nothing where the walk ends there.
    fn block(self, image: &[u8], at: u64, grain: bool) -> Option<u64> {
        let (first, kind) = (number(image, at * 512, 8), number(image, at * 512 + 12, 4));
        if grain {
            return Some(at + self.grain_sectors(number(image, at * 512 + 8, 4)));
        }
        let entries = (number(image, 12, 8) - 1) / (512 * number(image, 20, 8)) + 1;
        let directory = match self {
            DirectoryByItsNumber => first.min(1 << 40),
            DirectoryOfOneSector => 1,
            DirectoryOfEntries => entries,
            _ => directory_sectors(image),
        };
        let table = match self {
            TablesNotSteppedOver => 0,
            TableByItsNumber => first.min(1 << 40),
            _ => 4,
        };
        match if self == TypeByLowByte {
            kind % 256
        } else {
            kind
        } {
            1 if self == TablesEndIt => None,
            1 => Some(at + 1 + table),
            2 if self == DirectoriesEndIt => None,
            2 => Some(at + 1 + directory),
            0 if self == Type0Stepped => Some(at + 1),
            3 if self == Type3SteppedOver => Some(at + 2),
            4.. if self == OtherTypesStepped => Some(at + 1),
            _ => None,
        }
    }

    fn grain_sectors(self, size: u64) -> u64 {
        match self {
            MarkerOf16 => (16 + size - 1) / 512 + 1,
            PayloadOnly => (size - 1) / 512 + 1,
            SizeRoundedDown => ((12 + size) / 512).max(1),
            _ => (12 + size - 1) / 512 + 1,
        }
    }

    fn lets_cut(self, image: &[u8], at: u64, grain: bool) -> bool {
        match number(image, at * 512 + 12, 4) {
            _ if grain => self == CutGrainKept,
            1 => self == KeptToTable,
            _ => false,
        }
    }

    /// The grain of a marker, if it is kept.
    fn grain(self, image: &[u8], at: u64, kept: &Kept) -> Option<u64> {
        let length = if self == FirstOf32Bits { 4 } else { 8 };
        let first = number(image, at * 512, length);
        let (capacity, size) = (number(image, 12, 8), number(image, 20, 8));
        let end = match self {
            CapacityRoundedDown => capacity / size * size,
            PastCapacityKept => capacity + size,
            _ => capacity,
        };
        let grain = first / size;
        let last = kept.grains.last().map(|(grain, _)| *grain);
        let above = last.map_or(true, |last| match self {
            SecondGrainTaken | NotBelow => grain >= last,
            LowerGrainTaken => grain != last,
            _ => grain > last,
        });
        let multiple = first % size == 0 || self == NoMultipleKept;
        (multiple && first < end && above).then_some(grain)
    }
}

/// Whether the type says another marker, whatever the size.
fn is_other(image: &[u8], at: u64) -> bool {
    [1, 2].contains(&number(image, at * 512 + 12, 4))
}
