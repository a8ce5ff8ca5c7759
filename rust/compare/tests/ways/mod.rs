//! Mistakes about the way that a lookup goes, in steps that are made anew from the plain side's lookup and header and from the
//! image's own bytes.

use crate::closes::walk::number;
use crate::ones::one_is_zero;
use crate::{is_caught, Mistake as Wrong};
use compare::side::{Plain, Side};
use plain::{Located, Steps, STORED};

mistakes! {
    Remade:
    OffsetsInSectors EntryOfTheGrain EntryOfTheDisk RedundantDirectory TopByteLost ZerosAsAbsent
    AlwaysZeros NeverZeros ZerosByVersion ZerosOnHeaders SectorForGrain
    WayOn20 DirectoryPastTheEnd TablePastTheEnd TableOfZeros
    NoGrainOn8 NoDirectoryOn8 NoTableOn9 NoTableOn10 SourceOnRefusal
    StartOfTheGrain OffsetForgotten SizeForOffset PlaceForgotten
}

/// How far a way goes.
#[derive(Clone, Copy, PartialEq, PartialOrd)]
enum Reached {
    Nothing,
    Grain,
    Directory,
    Table,
}

impl Mistake {
    pub fn steps(self, image: &[u8], sector: u64) -> Steps {
        let found = Plain.lookup(image, sector);
        let mut steps = self.way(image, sector, self.reached(found));
        steps.number = found.number;
        steps.place = found.place;
        steps.kind = found.kind;
        steps.sector = found.sector;
        steps.size = found.size;
        steps.offset = found.offset;
        match (self, found.number) {
            (OffsetsInSectors, _) => {
                steps.directory_at /= 512;
                steps.table_at /= 512;
            }
            (ZerosOnHeaders, 3..=7) => steps.one_is_zero = one_is_zero(image).into(),
            (SourceOnRefusal, 9 | 10) => {
                (steps.kind, steps.sector) = (STORED, steps.table_entry);
            }
            (StartOfTheGrain, 0) if found.kind == STORED => steps.sector = steps.table_entry,
            (OffsetForgotten, _) => steps.offset = 0,
            (SizeForOffset, _) => steps.offset = found.size,
            (PlaceForgotten, _) => steps.place = 0,
            _ => {}
        }
        steps
    }

    fn reached(self, found: Located) -> Reached {
        match (self, found.number, found.place) {
            (WayOn20, 20, _) => Reached::Grain,
            (NoGrainOn8, 8, 2) => Reached::Nothing,
            (NoDirectoryOn8, 8, 4) => Reached::Grain,
            (NoTableOn9, 9, _) | (NoTableOn10, 10, _) => Reached::Directory,
            (DirectoryPastTheEnd, 8, 2) => Reached::Directory,
            (TablePastTheEnd, 8, 4) => Reached::Table,
            (_, 0 | 9 | 10, _) => Reached::Table,
            (_, 8, 4) => Reached::Directory,
            (_, 8, _) => Reached::Grain,
            _ => Reached::Nothing,
        }
    }

    /// What is told between `place` and `kind`.
    fn way(self, image: &[u8], sector: u64, reached: Reached) -> Steps {
        let mut way = Steps::default();
        if reached == Reached::Nothing {
            return way;
        }
        let grain = sector / Plain.header(image).grain_size;
        way.grain = grain;
        way.one_is_zero = match self {
            AlwaysZeros => 1,
            NeverZeros => 0,
            ZerosByVersion => u64::from(image[4] > 1),
            _ => one_is_zero(image).into(),
        };
        if self == SectorForGrain {
            way.grain = sector;
        }
        let [index, entry] = match self {
            EntryOfTheGrain => [grain, grain % 512],
            EntryOfTheDisk => [grain / 512, grain],
            _ => [grain / 512, grain % 512],
        };
        if reached >= Reached::Directory {
            way.directory_at = at(self.directory(image), index);
            way.directory_entry = self.entry(image, way.directory_at);
        }
        let zeros = self != TableOfZeros && one_is_zero(image);
        if reached == Reached::Table && way.directory_entry > u64::from(zeros) {
            way.table_at = at(way.directory_entry, entry);
            way.table_entry = self.entry(image, way.table_at);
        }
        way
    }

    /// The directory's sector.
    fn directory(self, image: &[u8]) -> u64 {
        let footer = (image.len() as u64 / 512).saturating_sub(2) * 512;
        match (number(image, 48, 8), number(image, 56, 8)) {
            (redundant, _) if self == RedundantDirectory && redundant != 0 => redundant,
            (_, u64::MAX) => number(image, footer + 56, 8),
            (_, directory) => directory,
        }
    }

    /// The number that stands at a byte of the file.
    fn entry(self, image: &[u8], at: u64) -> u64 {
        let entry = number(image, at, 4);
        match self {
            TopByteLost => entry & 0xff_ffff,
            ZerosAsAbsent if entry == 1 && one_is_zero(image) => 0,
            _ => entry,
        }
    }
}

/// The byte of an entry, in what starts at a sector that may be any.
fn at(sector: u64, entry: u64) -> u64 {
    sector.wrapping_mul(512).wrapping_add(4 * entry)
}

#[test]
fn each_mistake_about_the_way_is_caught() {
    for mistake in ALL {
        assert!(is_caught(Wrong::Ways(*mistake)), "{mistake:?}");
    }
}
