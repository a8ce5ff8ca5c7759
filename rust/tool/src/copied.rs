//! Parts of a file written to an output; and a mended image written anew: the file's bytes, holes as holes, and what decides as it
//! was judged, with the mended tables in it. The file itself is only read.

use crate::entries::packed;
use crate::failure::Failure;
use crate::layer::Layer;
use crate::mended::Mended;
use crate::output::Output;
use crate::progress::Progress;
use crate::writeback::Writeback;
use anhkhovet::{Source, SECTOR};
use std::ops::Range;

/// As much is read and written at once.
const PART: u64 = 1 << 20;

/// Bytes of a packed grain's marker.
const MARKER: usize = 12;

/// An output with room for a copy of an image.
pub struct Copied {
    output: Output,
    /// What of the file is no hole.
    parts: Vec<Range<u64>>,
}

impl Copied {
    /// A disk without room is told here.
    pub fn of(mended: &Mended, output: Output) -> Result<Copied, Failure> {
        let file = &mended.image.files()[0];
        let parts: Vec<Range<u64>> = file.data(0..file.length()).collect();
        output.reserve_parts(file.length(), &parts)?;
        Ok(Copied { output, parts })
    }

    /// The length of what was written, if the file is the same as before.
    pub fn write(self, mended: &Mended) -> Result<u64, Failure> {
        let file = &mended.image.files()[0];
        let writeback = Writeback::of(self.output.file()?);
        copy(file, &self.parts, &self.output)?;
        settle(mended, &self.output)?;
        mended.image.same()?;
        drop(writeback);
        self.output.finish()?;
        Ok(file.length())
    }
}

/// Copies these parts of a file to the same places of an output.
pub fn copy(file: &Layer, parts: &[Range<u64>], output: &Output) -> Result<(), Failure> {
    let all = parts.iter().map(|part| part.end - part.start).sum();
    let progress = Progress::start("writing", all);
    let mut buffer = Vec::new();
    let mut done = 0;
    for part in parts {
        let mut at = part.start;
        while at < part.end {
            let next = part.end.min(at + PART);
            buffer.resize((next - at) as usize, 0);
            file.read(at, &mut buffer)?;
            output.put(at, &buffer)?;
            done += next - at;
            progress.at(done);
            at = next;
        }
    }
    Ok(())
}

/// What decides, wherever the copy has something else: the mended tables, and whatever somebody wrote to the file meanwhile.
/// Other places are not written, since they may be holes.
fn settle(mended: &Mended, output: &Output) -> Result<(), Failure> {
    let own = mended.image.bytes(0);
    let put = |sector: u64, length: usize| {
        let at = sector * SECTOR;
        output.settle(at, &own[at as usize..][..length])
    };
    for area in mended.image.frame(0) {
        put(area.first, (area.sectors * SECTOR) as usize)?;
    }
    if packed(own) {
        let grains = (0..mended.disk.capacity).step_by(mended.disk.grain_size as usize);
        for found in grains.map(|first| anhkhovet::lookup(own, first)) {
            if let Ok(Source::Packed { sector, .. }) = found {
                put(sector, MARKER)?;
            }
        }
    }
    Ok(())
}
