//! Serving sectors: the lookup and the grain reader.

use crate::answers::{refusal, Located, Outside, Part, Refusal, ABSENT, PACKED, STORED, ZERO};
use crate::image::{Entry, Image};
use crate::numbers::SECTOR;

/// Where the bytes of a virtual sector stand.
#[derive(Clone, Copy, Debug, PartialEq, Eq)]
pub enum Source {
    Absent,
    Zero,
    Stored { sector: u64 },
    Packed { marker: u64, size: u64, offset: u64 },
}

/// The source of virtual sector `sector`: the header's refusals, 20, 8, 9, 10. Of 8 only places 2 and 4.
pub fn source(bytes: &[u8], sector: u64) -> Result<Source, Refusal> {
    let image = Image::judged(bytes)?;
    let header = &image.header;
    if sector >= header.capacity {
        return Err(refusal(20));
    }
    image.judge_directory()?;
    let grain = sector / header.grain_size;
    let offset = sector % header.grain_size;
    let table = match image.entry(header.directory, grain / header.entries_per_table()) {
        Entry::Absent => return Ok(Source::Absent),
        Entry::Zero => return Ok(Source::Zero),
        Entry::Sector(table) => table,
    };
    image.judge_table(table, Outside::PrimaryTable)?;
    let at = match image.grain_entry(table, grain) {
        Entry::Absent => return Ok(Source::Absent),
        Entry::Zero => return Ok(Source::Zero),
        Entry::Sector(at) => at,
    };
    image.judge_past(grain, at)?;
    image.judge_marker(grain, at)?;
    if header.packed() {
        let (_, size) = image.marker(at);
        Ok(Source::Packed {
            marker: at,
            size,
            offset,
        })
    } else {
        Ok(Source::Stored {
            sector: at + offset,
        })
    }
}

/// An answer in numbers; `layer` is 0 outside chains and split disks, where it is the extent.
pub fn located(answer: Result<Source, Refusal>, layer: u64) -> Located {
    let mut located = Located {
        layer,
        ..Located::default()
    };
    match answer {
        Err(refusal) => {
            located.number = refusal.number;
            located.place = refusal.place;
        }
        Ok(Source::Absent) => located.kind = ABSENT,
        Ok(Source::Zero) => located.kind = ZERO,
        Ok(Source::Stored { sector }) => {
            located.kind = STORED;
            located.sector = sector;
        }
        Ok(Source::Packed {
            marker,
            size,
            offset,
        }) => {
            located.kind = PACKED;
            located.sector = marker;
            located.size = size;
            located.offset = offset;
        }
    }
    located
}

/// The public call.
pub fn lookup(image: &[u8], sector: u64) -> Located {
    located(source(image, sector), 0)
}

/// The grain reader: which bytes of the image it hands back; 0 and 0 for an empty part.
pub fn read(image: &[u8], sector: u64) -> Part {
    match source(image, sector) {
        Ok(Source::Stored { sector }) => Part {
            at: sector * SECTOR,
            length: SECTOR,
        },
        Ok(Source::Packed { marker, size, .. }) => Part {
            at: marker * SECTOR + 12,
            length: size,
        },
        _ => Part::default(),
    }
}
