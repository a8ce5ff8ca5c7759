//! Mistakes of the lab profile, in one that is made anew from the plain side's check, header and normal form.

use compare::side::{Plain, Side};
use plain::{Head, Verdict};
use std::ops::Range;

mistakes! {
    Remade:
    KindBeforeTheCheck PlaceDropped PackedMet OpenMet OpenBefore23 SizesBefore23 SizesBefore27 FormBeforeSizes
    SizesMet GrainSize64Met GrainSize256Met CapacityUnjudged
    LengthNotCompared SectorsCounted LongerMet ShorterMet
    HeaderSkipped VersionSkipped FlagsSkipped DescriptorSkipped DirectorySectorSkipped OverheadSkipped PaddingSkipped
    RedundantLetThrough DirectorySkipped UnusedDirectorySkipped TablesSkipped UnusedEntriesSkipped GapSkipped LastGapByteSkipped
    StopsAtZero PlaceFromFirstGrain PlaceOfSector PlaceInSectors PlaceOfEntry PlaceFromOne LastDifference LongerLength
    NoSizesTold
}

/// More grains than this have a long front.
const MOST: u64 = 512 * 200;

impl Mistake {
    pub fn profile(self, image: &[u8]) -> Verdict {
        let head = Plain.header(image);
        if head.number == 0 && head.capacity / head.grain_size > MOST {
            return Plain.profile(image);
        }
        let verdict = Plain.check(image);
        if self == KindBeforeTheCheck && head.number == 0 && is_packed(image) {
            return refused(23, 0);
        }
        if verdict.number != 0 {
            let place = match self {
                PlaceDropped => 0,
                _ => verdict.place,
            };
            return refused(verdict.number, place);
        }
        match self.judge(image, head) {
            Some(refusal) => refusal,
            None if self == NoSizesTold => Verdict::default(),
            None => verdict,
        }
    }

    /// 23, 27, 47 and 42, in the mistake's order, of an accepted image.
    fn judge(self, image: &[u8], head: Head) -> Option<Verdict> {
        let packed = is_packed(image);
        let place = match packed {
            true => None,
            false => self.difference(image, head),
        };
        let mut refusals = vec![
            (23, packed && self != PackedMet),
            (27, head.dirty != 0 && self != OpenMet),
            (47, self.sizes(head)),
            (42, place.is_some()),
        ];
        match self {
            OpenBefore23 => refusals.swap(0, 1),
            SizesBefore23 => refusals.swap(0, 2),
            SizesBefore27 => refusals.swap(1, 2),
            FormBeforeSizes => refusals.swap(2, 3),
            _ => {}
        }
        let (number, _) = refusals.into_iter().find(|(_, holds)| *holds)?;
        let place = if number == 42 { place? } else { 0 };
        Some(refused(number, place))
    }

    /// Whether it is refused 47.
    fn sizes(self, head: Head) -> bool {
        let size = match (self, head.grain_size) {
            (GrainSize64Met, 64) | (GrainSize256Met, 256) => false,
            (_, size) => size != 128,
        };
        let capacity = head.capacity % 128 != 0 && self != CapacityUnjudged;
        (size || capacity) && self != SizesMet
    }

    /// The place of 42 in an uncompressed KDMV image.
    fn difference(self, image: &[u8], head: Head) -> Option<u64> {
        let mut clean = image.to_vec();
        clean[72] = 0;
        let form = plain::normal(&clean, usize::MAX).ok()?;
        let skipped = self.skipped(head, image);
        let mut both = (0..).zip(image.iter().zip(&form));
        let mut found = None;
        for (at, (one, other)) in both.by_ref() {
            if one != other && !skipped.contains(&at) {
                found = Some(at as u64);
                if self != LastDifference {
                    break;
                }
            }
            if self == StopsAtZero && *one == 0 && *other == 0 && at >= 512 {
                break;
            }
        }
        let place = found.or_else(|| self.length(image, &form))?;
        Some(match self {
            PlaceFromFirstGrain => place.saturating_sub(ends(head)[4] as u64),
            PlaceOfSector => place / 512 * 512,
            PlaceInSectors => place / 512,
            PlaceOfEntry => place / 4 * 4,
            PlaceFromOne => place + 1,
            _ => place,
        })
    }

    /// The place where one is a start of the other.
    fn length(self, image: &[u8], form: &[u8]) -> Option<u64> {
        let lengths = [image.len(), form.len()];
        let redundant = image[48..56] != [0; 8];
        let same = match self {
            LengthNotCompared => true,
            SectorsCounted => lengths[0] / 512 == lengths[1] / 512,
            LongerMet => lengths[0] >= lengths[1],
            ShorterMet => lengths[0] <= lengths[1],
            RedundantLetThrough if redundant => true,
            _ => lengths[0] == lengths[1],
        };
        let place = match self {
            LongerLength => lengths[0].max(lengths[1]),
            _ => lengths[0].min(lengths[1]),
        };
        (!same).then_some(place as u64)
    }

    /// Bytes that are not compared.
    fn skipped(self, head: Head, image: &[u8]) -> Range<usize> {
        let [entries, directory, grains, tables, gap] = ends(head);
        match self {
            OpenMet => 72..73,
            HeaderSkipped => 0..512,
            VersionSkipped => 4..8,
            FlagsSkipped => 8..12,
            DescriptorSkipped => 28..44,
            DirectorySectorSkipped => 56..64,
            OverheadSkipped => 64..72,
            PaddingSkipped => 79..512,
            RedundantLetThrough if image[48..56] != [0; 8] => 48..56,
            DirectorySkipped => 512..directory,
            UnusedDirectorySkipped => entries..directory,
            TablesSkipped => directory..tables,
            UnusedEntriesSkipped => grains..tables,
            GapSkipped => tables..gap,
            LastGapByteSkipped => gap - 1..gap,
            _ => 0..0,
        }
    }
}

/// Ends, in bytes, of what stands before the grains of a normal form: the directory's entries in use, the directory, the grains'
/// entries, the tables, the gap.
fn ends(head: Head) -> [usize; 5] {
    let grains = (head.capacity - 1) / head.grain_size + 1;
    let n = (grains - 1) / 512 + 1;
    let first_table = 2 + (n - 1) / 128;
    let end = first_table + 4 * n;
    let v = (end - 1) / head.grain_size * head.grain_size + head.grain_size;
    let bytes = [
        512 + 4 * n,
        512 * first_table,
        512 * first_table + 4 * grains,
        512 * end,
        512 * v,
    ];
    bytes.map(|end| end as usize)
}

fn is_packed(image: &[u8]) -> bool {
    image[77] == 1
}

fn refused(number: u64, place: u64) -> Verdict {
    Verdict {
        number,
        place,
        ..Verdict::default()
    }
}
