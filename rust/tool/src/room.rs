//! How long the result of `normal`, `collapse` and `move` is: docs/COLLAPSE.md has the layouts.

use crate::cores;
use crate::cowd::Cowd;
use crate::failure::Failure;
use anhkhovet::{Disk, Refusal, Source, SECTOR};
use std::ops::Range;

/// Grains that are looked up in one go.
const BATCH: u64 = 1 << 16;

/// A quotient, rounded up.
pub fn up(number: u64, by: u64) -> u64 {
    (number + by - 1) / by
}

/// What an image is written as.
#[derive(Clone, Copy, Debug, PartialEq, Eq)]
pub enum Kind {
    Kdmv,
    Cowd,
}

impl Kind {
    pub fn word(self) -> &'static str {
        match self {
            Kind::Kdmv => "KDMV",
            Kind::Cowd => "COWD",
        }
    }

    /// Sectors of the header and of a table.
    fn parts(self) -> (u64, u64) {
        match self {
            Kind::Kdmv => (1, 4),
            Kind::Cowd => (4, 32),
        }
    }
}

/// Images that are accepted and alike, lowest first, and what is made of them. A COWD image, which is moved, is the only one.
pub struct Room<'a> {
    kind: Kind,
    disk: Disk,
    images: &'a [&'a [u8]],
}

impl<'a> Room<'a> {
    pub fn of(kind: Kind, images: &'a [&'a [u8]]) -> Result<Room<'a>, Refusal> {
        let disk = match Cowd::of(images[0]) {
            Some(old) => old.disk,
            None => anhkhovet::header(images[0])?.disk,
        };
        Ok(Room { kind, disk, images })
    }

    fn grains(&self) -> u64 {
        up(self.disk.capacity, self.disk.grain_size)
    }

    /// Header, directory and tables, then the stored grains: in KDMV from a multiple of their size on.
    pub fn length(&self, stored: u64) -> u64 {
        let size = self.disk.grain_size;
        let (header, table) = self.kind.parts();
        // 128 entries fill a sector.
        let tables = up(self.disk.capacity, 128 * table * size);
        let end = header + up(tables * 4, SECTOR) + table * tables;
        let start = match self.kind {
            Kind::Kdmv => up(end, size) * size,
            Kind::Cowd => end,
        };
        SECTOR * (start + size * stored)
    }

    /// The most that it can be: every sector of the images a stored grain's.
    pub fn most(&self) -> u64 {
        let size = SECTOR * self.disk.grain_size;
        let held = self.images.iter().map(|image| image.len() as u64 / size);
        self.length(self.grains().min(held.sum()))
    }

    /// The length itself, by a lookup a grain: that takes a second for a disk of a tebibyte. Of COWD the entries tell.
    pub fn counted(&self) -> Result<u64, Failure> {
        if let Some(old) = Cowd::of(self.images[0]) {
            return Ok(self.length(old.stored()));
        }
        let grains = self.grains();
        let mut batches = (0..up(grains, BATCH)).map(|batch| {
            let first = batch * BATCH;
            first..grains.min(first + BATCH)
        });
        let mut stored = 0;
        cores::in_order(
            || Ok(batches.next()),
            |batch| self.stored(batch),
            |count| {
                stored += count;
                Ok(())
            },
        )?;
        Ok(self.length(stored))
    }

    /// How many of these grains the topmost image that has them at all stores.
    fn stored(&self, grains: Range<u64>) -> u64 {
        let stored = |grain: &u64| {
            let sector = grain * self.disk.grain_size;
            let images = self.images.iter().rev();
            let mut sources = images.map(|image| anhkhovet::lookup(image, sector));
            let topmost = sources.find(|source| *source != Ok(Source::Absent));
            matches!(topmost, Some(Ok(Source::Stored { .. })))
        };
        grains.filter(stored).count() as u64
    }
}

#[cfg(test)]
mod tests {
    use super::*;
    use std::path::Path;

    fn sample(name: &str) -> Vec<u8> {
        let samples = Path::new(env!("CARGO_MANIFEST_DIR")).join("../../samples");
        std::fs::read(samples.join(name)).expect("a sample")
    }

    /// What the library then writes has the length that was counted.
    fn right(kind: Kind, images: &[&[u8]], written: Result<u64, anhkhovet::Refusal>) {
        let room = Room::of(kind, images).expect("accepted");
        assert_eq!(room.counted().expect("counted"), written.expect("written"));
        assert!(room.most() >= written.expect("written"));
    }

    #[test]
    fn the_length_is_known_before() {
        let chain = ["tool-base.vmdk", "tool-middle.vmdk", "tool-top.vmdk"].map(sample);
        let mut out = vec![0; 1 << 24];
        for lower in &chain {
            right(Kind::Kdmv, &[lower], anhkhovet::normal(lower, &mut out));
            for upper in &chain {
                let written = anhkhovet::collapse(lower, upper, &mut out);
                right(Kind::Kdmv, &[lower, upper], written);
            }
        }
        let written = anhkhovet::to_cowd(&chain[0], &mut out);
        right(Kind::Cowd, &[&chain[0]], written);
        let old = sample("cowd-s001.vmdk");
        right(Kind::Kdmv, &[&old], anhkhovet::to_kdmv(&old, &mut out));
    }
}
