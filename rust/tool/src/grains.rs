//! How a disk is cut into grains: an image or a chain from its first sector on, a disk of several files extent by extent.

use anhkhovet::Disk;
use std::ops::Range;

/// Sectors that are worked on at once where an extent has no grains: as many as grains mostly have.
const PIECE: u64 = 128;

pub struct Grains {
    parts: Vec<Part>,
    size: Option<u64>,
}

/// Sectors up to before `end` that are cut from `first` on.
struct Part {
    first: u64,
    end: u64,
    size: u64,
}

impl Grains {
    pub fn of(disk: Disk) -> Grains {
        Grains {
            parts: vec![Part {
                first: 0,
                end: disk.capacity,
                size: disk.grain_size,
            }],
            size: Some(disk.grain_size),
        }
    }

    /// Of extents in a row from a first sector on, at least one: the sectors of each, and its grain size if it is an image.
    pub fn of_extents(mut first: u64, extents: &[(u64, Option<u64>)]) -> Grains {
        let mut sizes = extents.iter().filter_map(|(_, size)| *size);
        let size = sizes
            .next()
            .filter(|first| sizes.all(|size| size == *first));
        let mut parts = Vec::new();
        for (sectors, own) in extents {
            let end = first + sectors;
            let size = own.or(size).unwrap_or(PIECE);
            parts.push(Part { first, end, size });
            first = end;
        }
        let at_grains = |size: &u64| parts.iter().all(|part| part.first % size == 0);
        Grains {
            size: size.filter(at_grains),
            parts,
        }
    }

    /// One more than the last sector.
    pub fn capacity(&self) -> u64 {
        self.parts.last().map_or(0, |part| part.end)
    }

    /// The grain size of the whole disk, as one image would have it. There is none where images differ in theirs, where no
    /// extent is an image, and where an extent begins inside of a grain.
    pub fn size(&self) -> Option<u64> {
        self.size
    }

    /// The grain that holds a sector of the disk, as far as it lies below capacity or its extent's end.
    pub fn around(&self, sector: u64) -> Range<u64> {
        let part = &self.parts[self.parts.partition_point(|part| part.end <= sector)];
        let first = sector - (sector - part.first) % part.size;
        first..part.end.min(first + part.size)
    }
}
