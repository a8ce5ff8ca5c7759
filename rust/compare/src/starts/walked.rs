//! A start's blocks, listed anew for the table's rows.

use crate::image::up;
use crate::ones::number;

/// What ends a walk, where there is still a sector.
#[derive(Clone, Copy, Debug, PartialEq, Eq)]
pub enum Stop {
    Kind(u64),
    /// A block of this kind that is not wholly there.
    Cut(Kind),
    NoMultiple,
    PastCapacity,
    Again,
    Below,
}

#[derive(Clone, Copy, Debug, PartialEq, Eq)]
pub enum Kind {
    Grain,
    Table,
    Directory,
}

pub struct Block {
    pub kind: Kind,
    pub end: u64,
    /// The marker's numbers.
    pub first: u64,
    pub size: u64,
}

/// The walk over a start that is not refused.
pub struct Walked {
    pub capacity: u64,
    pub grain_size: u64,
    pub overhead: u64,
    /// F.
    pub sectors: u64,
    pub blocks: Vec<Block>,
    pub stop: Option<Stop>,
    /// The sector that it ends at.
    pub end: u64,
}

impl Walked {
    pub fn of(image: &[u8]) -> Walked {
        let mut walked = Walked {
            capacity: number(image, 12, 8),
            grain_size: number(image, 20, 8),
            overhead: number(image, 64, 8),
            sectors: image.len() as u64 / 512,
            blocks: Vec::new(),
            stop: None,
            end: number(image, 64, 8),
        };
        while walked.end < walked.sectors {
            match walked.block(image) {
                Ok(block) => {
                    walked.end = block.end;
                    walked.blocks.push(block);
                }
                Err(stop) => {
                    walked.stop = Some(stop);
                    break;
                }
            }
        }
        walked
    }

    /// Sectors of the directory.
    pub fn directory(&self) -> u64 {
        up(up(self.capacity, 512 * self.grain_size) * 4, 512)
    }

    fn block(&self, image: &[u8]) -> Result<Block, Stop> {
        let at = self.end * 512;
        let (first, size) = (number(image, at, 8), number(image, at + 8, 4));
        let (kind, sectors) = match (size, number(image, at + 12, 4)) {
            (0, 1) => (Kind::Table, 5),
            (0, 2) => (Kind::Directory, 1 + self.directory()),
            (0, other) => return Err(Stop::Kind(other)),
            (size, _) => (Kind::Grain, up(12 + size, 512)),
        };
        if kind == Kind::Grain {
            self.judge(first)?;
        }
        let end = self.end + sectors;
        if end > self.sectors {
            return Err(Stop::Cut(kind));
        }
        Ok(Block {
            kind,
            end,
            first,
            size,
        })
    }

    /// A grain's first sector.
    fn judge(&self, first: u64) -> Result<(), Stop> {
        let last = self.grains().last().map(|grain| grain.first);
        match last {
            _ if first % self.grain_size != 0 => Err(Stop::NoMultiple),
            _ if first >= self.capacity => Err(Stop::PastCapacity),
            Some(last) if first == last => Err(Stop::Again),
            Some(last) if first < last => Err(Stop::Below),
            _ => Ok(()),
        }
    }

    pub fn grains(&self) -> impl DoubleEndedIterator<Item = &Block> {
        let blocks = self.blocks.iter();
        blocks.filter(|block| block.kind == Kind::Grain)
    }

    /// The directory entries with grains, each once.
    pub fn entries(&self) -> Vec<u64> {
        let entry = |grain: &Block| grain.first / (512 * self.grain_size);
        let mut entries: Vec<u64> = self.grains().map(entry).collect();
        entries.dedup();
        entries
    }
}
