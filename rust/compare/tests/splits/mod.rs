//! Mistakes about disks cut into several files: each is the plain side on other inputs, or another answer of it.

use crate::gone::moved;
use crate::{miscounts, wrapped};
use compare::side::{Plain, Side};
use plain::{Extent, Located};

#[derive(Clone, Copy, Debug, PartialEq)]
pub enum Mistake {
    OffsetOfVmfsLeftOut,
    OffsetInBytes,
    LengthsOfZeroSkipped,
    SectorOfTheDisk,
    CapacityNotCompared,
    CapacityFirst,
    OtherMagicServed,
    MagicAfterTheImage,
    BytesOfZeroIgnored,
    NoAccessServed,
    AccessAfterTheFile,
    CountNotCompared,
    SumNotCompared,
    SumThatWraps,
    SectorBeforeLengths,
    AllFilesJudged,
    OneSectorShort,
    ExtentNamedFor20,
    ExtentNamedFor24,
    ExtentNamedForTheText,
    LineForgotten,
    GrainForgotten,
    TypeByItsFile,
    TypeBeforeAccess,
    TypeServed,
    TypeIs45,
    TypeNamesNoExtent,
    OtherMagicIs43,
    CowdInFlatRefused,
}

use Mistake::*;

pub const ALL: [Mistake; 29] = [
    OffsetOfVmfsLeftOut,
    OffsetInBytes,
    LengthsOfZeroSkipped,
    SectorOfTheDisk,
    CapacityNotCompared,
    CapacityFirst,
    OtherMagicServed,
    MagicAfterTheImage,
    BytesOfZeroIgnored,
    NoAccessServed,
    AccessAfterTheFile,
    CountNotCompared,
    SumNotCompared,
    SumThatWraps,
    SectorBeforeLengths,
    AllFilesJudged,
    OneSectorShort,
    ExtentNamedFor20,
    ExtentNamedFor24,
    ExtentNamedForTheText,
    LineForgotten,
    GrainForgotten,
    TypeByItsFile,
    TypeBeforeAccess,
    TypeServed,
    TypeIs45,
    TypeNamesNoExtent,
    OtherMagicIs43,
    CowdInFlatRefused,
];

impl Mistake {
    pub fn split(self, text: &[u8], files: &[u8], lengths: &[u64], sector: u64) -> Located {
        let located = Plain.split(text, files, lengths, sector);
        let extents = plain::descriptor(text, plain::MOST_EXTENTS).1;
        let naming = |layer| Located { layer, ..located };
        let own = located.layer as usize;
        match (self, located.number) {
            (LineForgotten, 30..=36) => refusal(located.number, 0),
            (ExtentNamedFor20, 20) => naming(extents.len() as u64 - 1),
            (ExtentNamedFor24, 24) => naming(lengths.len() as u64),
            (ExtentNamedForTheText, 30..=36) => naming(1),
            (TypeNamesNoExtent, 43) => naming(0),
            (SectorBeforeLengths, 24) => match Plain.find(&extents, sector).number {
                20 => refusal(20, 0),
                _ => located,
            },
            (_, 24) => self.fit(located, text, files, lengths, sector),
            (_, 20 | 30..=36) => located,
            (AllFilesJudged, _) => {
                first_fault(&extents, &miscounts::parts(files, lengths)).unwrap_or(located)
            }
            (LengthsOfZeroSkipped, 0) => {
                let mut skipped = lengths.to_vec();
                skipped.sort_by_key(|length| *length == 0);
                Plain.split(text, files, &skipped, sector)
            }
            _ => {
                let file = miscounts::parts(files, lengths)[own];
                let layer = located.layer;
                let served = self.serve(located, extents[own], file, sector);
                Located { layer, ..served }
            }
        }
    }

    /// What the mistake makes of lengths that do not fit.
    fn fit(
        self,
        located: Located,
        text: &[u8],
        files: &[u8],
        lengths: &[u64],
        sector: u64,
    ) -> Located {
        let mut lengths = lengths.to_vec();
        match self {
            SumThatWraps if wrapped(&lengths) == files.len() as u64 => return refusal(20, 0),
            CountNotCompared => {
                let count = plain::descriptor(text, plain::MOST_EXTENTS).0.extents;
                lengths.resize(count as usize, 0);
            }
            SumNotCompared => {}
            _ => return located,
        }
        let sum: u128 = lengths.iter().map(|length| u128::from(*length)).sum();
        let end = files.len().min(sum as usize);
        Plain.split(text, &files[..end], &lengths, sector)
    }

    /// What the mistake makes of the answer on the sector's own extent and file.
    fn serve(self, located: Located, extent: Extent, file: &[u8], sector: u64) -> Located {
        let inside = sector - extent.first;
        let head = Plain.header(file);
        let other_capacity = head.number == 0 && head.capacity != extent.sectors;
        let changed = |to: Extent| alone(to, file, inside);
        match (self, located.number, extent.kind) {
            (OffsetOfVmfsLeftOut, 0, 2) => changed(Extent {
                offset: 0,
                ..extent
            }),
            (OffsetInBytes, 0, 1 | 2) => changed(Extent {
                offset: extent.offset / 512,
                ..extent
            }),
            (SectorOfTheDisk, 0, _) => alone(extent, file, sector),
            (CapacityNotCompared, 38, _) => Plain.lookup(file, inside),
            (GrainForgotten, 9 | 10, _) => refusal(located.number, 0),
            (CapacityFirst, 1..=12, _) if other_capacity => refusal(38, 0),
            (OtherMagicServed, 45, 3) | (TypeServed, 43, _) => in_cowd(located, file, inside),
            (MagicAfterTheImage, 45, 3) => match Plain.check(file) {
                verdict if verdict.number == 0 => located,
                verdict => refusal(verdict.number, verdict.place),
            },
            (BytesOfZeroIgnored, 45, 5) => alone(extent, &[], inside),
            (NoAccessServed, 39, _) => changed(extent),
            (AccessAfterTheFile, 39, _) if changed(extent).number == 45 => refusal(45, 0),
            (TypeByItsFile, 43, _) => match Plain.check(file).number {
                number @ (1 | 2) => refusal(number, 0),
                43 => located,
                _ => refusal(45, 0),
            },
            (TypeBeforeAccess, 39, 4) | (OtherMagicIs43, 45, 3) => refusal(43, 0),
            (TypeIs45, 43, _) => refusal(45, 0),
            (CowdInFlatRefused, 0, 1 | 2) if file.starts_with(b"COWD") => refusal(43, 0),
            (OneSectorShort, 45, 1 | 2) => alone(extent, &[file, &[0; 512]].concat(), inside),
            _ => located,
        }
    }
}

fn refusal(number: u64, place: u64) -> Located {
    Located {
        number,
        place,
        ..Located::default()
    }
}

/// What a COWD file served before request A13, by its move.
fn in_cowd(located: Located, file: &[u8], inside: u64) -> Located {
    match moved(file) {
        Some(image) => Plain.lookup(&image, inside),
        None => located,
    }
}

/// The refusal of the first extent whose file is at fault.
fn first_fault(extents: &[Extent], files: &[&[u8]]) -> Option<Located> {
    let mut answers = (0..).zip(extents.iter().zip(files));
    answers.find_map(|(layer, (extent, file))| {
        let located = alone(*extent, file, 0);
        (located.number != 0).then_some(Located { layer, ..located })
    })
}

/// The answer on an extent that is a disk by itself, and RW.
fn alone(extent: Extent, file: &[u8], sector: u64) -> Located {
    let (sectors, offset) = (extent.sectors, extent.offset);
    let line = match extent.kind {
        1 => format!("FLAT \"a\" {offset}"),
        2 => format!("VMFS \"a\" {offset}"),
        3 => "SPARSE \"a\"".to_string(),
        4 => "VMFSSPARSE \"a\"".to_string(),
        _ => "ZERO".to_string(),
    };
    let keys = "version=1\nCID=1\nparentCID=1\ncreateType=\"\"";
    let text = format!("# Disk DescriptorFile\n{keys}\nRW {sectors} {line}");
    Plain.split(text.as_bytes(), file, &[file.len() as u64], sector)
}
