//! Where the stored bytes of a disk's sectors are, in runs: all that is between them reads as zeros.

use crate::failure::Failure;
use crate::given::Given;
use crate::grains::Grains;
use crate::progress::Progress;
use crate::whole::unpacked;
use anhkhovet::{Source, SECTOR};
use std::ops::Range;

/// Bytes in a row, on the disk and in a file.
pub struct Run {
    /// Where they begin on the disk.
    pub at: u64,
    /// The number of the file among those that are open, and where they are in it.
    pub file: usize,
    pub bytes: Range<u64>,
}

impl Run {
    pub fn length(&self) -> u64 {
        self.bytes.end - self.bytes.start
    }

    /// Where they end on the disk.
    pub fn end(&self) -> u64 {
        self.at + self.length()
    }

    fn goes_on(&self, next: &Run) -> bool {
        self.file == next.file && self.end() == next.at && self.bytes.end == next.bytes.start
    }
}

/// The runs of these sectors, none of which is packed.
pub fn runs(given: &mut Given, cut: &Grains, sectors: Range<u64>) -> Result<Vec<Run>, Failure> {
    let progress = Progress::start("mapping", sectors.end - sectors.start);
    let mut runs: Vec<Run> = Vec::new();
    let mut first = sectors.start;
    while first < sectors.end {
        let found = unpacked(given, first)?;
        let end = cut.around(first).end.min(sectors.end);
        if let Source::Stored { .. } = found.source {
            let place = given.place(&found, first, end - first);
            let next = Run {
                at: first * SECTOR,
                file: place.file,
                bytes: place.bytes,
            };
            match runs.last_mut() {
                Some(run) if run.goes_on(&next) => run.bytes.end = next.bytes.end,
                _ => runs.push(next),
            }
        }
        first = end;
        progress.at(first - sectors.start);
    }
    given.same()?;
    Ok(runs)
}
