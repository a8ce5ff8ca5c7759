//! The end of the way: what the entry leads to, or what is wrong with it.

use super::step::{Standing, Step};
use super::walk::{flags, Known};
use crate::entries::{packed, ENTRIES, ENTRY};
use crate::room::up;
use crate::start::number;
use anhkhovet::{Refusal, Source, SECTOR};

/// The bytes of a packed grain's marker: its first virtual sector, and the size of its payload.
const MARKER: u64 = 12;
const FIRST: usize = 8;
const SIZE: usize = 4;

/// The sectors of a table.
const TABLE: u64 = ENTRIES * ENTRY / SECTOR;

/// What comes after an image that has nothing of a grain.
#[derive(Clone, Copy)]
pub enum Below {
    /// A parent, if there is one: that is not known here.
    Unknown,
    /// The next layer of a chain.
    Layer(u64),
    /// It is the lowest of a chain.
    Nothing,
}

/// The last steps to an answer.
pub fn end(known: &Known, source: Source, below: Below) -> Vec<Step> {
    let mut steps = match source {
        Source::Absent => return vec![absent(below)],
        Source::Zero => vec![Step::of(
            "zero",
            "every byte of the grain is 0, and none is stored".to_string(),
        )],
        Source::Stored { sector } => vec![stored(known, sector)],
        Source::Packed { sector, size, .. } => {
            let mut steps = marker(known, sector);
            steps.push(unpacked(known, sector, size));
            steps
        }
    };
    if let Below::Layer(layer) = below {
        let rest = match layer {
            0 => "layer 0 is".to_string(),
            1 => "layers 1 and 0 are".to_string(),
            _ => format!("layers {layer} to 0 are"),
        };
        let words = format!("{rest} not asked, whatever stands there");
        steps.push(Step::of("below", words));
    }
    steps
}

fn absent(below: Below) -> Step {
    let words = match below {
        Below::Unknown => {
            "the file has nothing of the grain: it is a parent's or, where there is none, zeros"
                .to_string()
        }
        Below::Layer(layer) => format!(
            "this layer has nothing of the grain, so layer {layer}, the next below, is asked"
        ),
        Below::Nothing => {
            "this layer has nothing of the grain, and none is below it: zeros".to_string()
        }
    };
    Step::of("absent", words)
}

fn stored(known: &Known, sector: u64) -> Step {
    let (offset, first) = (known.offset(), grain_sector(known));
    let words = format!(
        "file sector {first} + {offset} = {sector}, at byte {SECTOR} x {sector} = {}",
        SECTOR * sector
    );
    Step::of("stored", words)
}

/// Where the table's entry says that the grain begins.
fn grain_sector(known: &Known) -> u64 {
    known.way.table.map_or(0, |table| table.entry)
}

/// Why there is a marker, and its two numbers with what has to stand there.
fn marker(known: &Known, sector: u64) -> Vec<Step> {
    let (grain, size) = (known.way.grain, known.disk.grain_size);
    let at = SECTOR * sector;
    let first = Standing::of(known.own, at, FIRST);
    let of_first = format!(
        "{}, the grain's first sector on the disk, which has to be {grain} x {size} = {}",
        first.words(&format!("{SECTOR} x {sector}")),
        grain * size
    );
    let payload = Standing::of(known.own, at + FIRST as u64, SIZE);
    let of_payload =
        payload.words(&format!("{at} + {FIRST}")) + ", the bytes of its payload, at least 1";
    vec![
        flags(
            known.own,
            "with 0x10000 grains are packed, each behind a marker",
        ),
        Step::by("marker", of_first, first),
        Step::by("marker", of_payload, payload),
    ]
}

fn unpacked(known: &Known, sector: u64, size: u64) -> Step {
    let (at, offset) = (SECTOR * sector, known.offset());
    let words = format!(
        "the payload's {size} bytes stand from byte {at} + {MARKER} = {} on; in what they unpack to, which is not done here, the sector begins at byte {SECTOR} x {offset} = {}",
        at + MARKER,
        SECTOR * offset
    );
    Step::of("packed", words)
}

/// Where the way ends, and why it does not go on.
pub fn refused(known: &Known, refusal: Refusal) -> Vec<Step> {
    match (known.way.directory, known.way.table) {
        (None, _) => vec![directory(known)],
        (Some(entry), None) => vec![past(known, "table", entry.entry, TABLE)],
        (_, Some(_)) if packed(known.own) => closed(known, refusal),
        (_, Some(_)) => {
            let first = grain_sector(known);
            vec![past(known, "grain", first, known.disk.grain_size)]
        }
    }
}

fn directory(known: &Known) -> Step {
    let entries = up(known.disk.capacity, ENTRIES * known.disk.grain_size);
    match known.directory {
        0 => Step::of(
            "end",
            "file sector 0 is the header's, so no directory begins there".to_string(),
        ),
        first => past(known, "directory", first, up(ENTRY * entries, SECTOR)),
    }
}

/// A packed grain whose marker is not in the file, leads past its end, or is not the grain's.
fn closed(known: &Known, refusal: Refusal) -> Vec<Step> {
    let first = grain_sector(known);
    if first >= sectors(known) {
        return vec![past(known, "marker", first, 1)];
    }
    let mut steps = marker(known, first);
    if refusal.number == 9 {
        let size = number(known.own, SECTOR * first + FIRST as u64, SIZE);
        let part = format!("grain of {MARKER} + {size} bytes");
        steps.push(past(known, &part, first, up(MARKER + size, SECTOR)));
    }
    steps
}

/// The whole sectors of the file.
fn sectors(known: &Known) -> u64 {
    known.own.len() as u64 / SECTOR
}

/// What would reach past the end of the file.
fn past(known: &Known, part: &str, first: u64, count: u64) -> Step {
    let all = sectors(known);
    let noun = if count == 1 { "sector" } else { "sectors" };
    let words = format!(
        "the {part} takes {count} {noun} from file sector {first} on, and the file's last one is {}",
        all.saturating_sub(1)
    );
    Step::of("end", words)
}
