//! What the sectors of one file are for, counted.

use crate::failure::{Failure, Refusal};
use anhkhovet::{Group, Source, SECTOR};
use serde_json::{json, Value};

/// The sectors of the file of a layer or an extent. None counts twice: no sector of an accepted image lies in two areas.
#[derive(Default)]
pub struct Held {
    /// The sectors that a stored grain takes; none where the file has no grains but plain sectors.
    grain_size: Option<u64>,
    /// Those that are sectors of the disk.
    served: u64,
    /// Those of packed grains that the disk is served from.
    packed: u64,
    /// Those of grains that a layer above hides.
    hidden: u64,
    /// Those of the last grain, served or hidden, that are no sectors of the disk.
    past_capacity: u64,
    /// Those of the areas that are no grains, by group.
    areas: [u64; GROUPS.len()],
    /// All that the file has.
    sectors: u64,
    /// What comes after the last whole sector.
    bytes_past: u64,
}

const GROUPS: [(Group, &str); 8] = [
    (Group::Header, "header"),
    (Group::Descriptor, "descriptor"),
    (Group::Directory, "directory"),
    (Group::RedundantDirectory, "redundant_directory"),
    (Group::PrimaryTable, "primary_tables"),
    (Group::RedundantTable, "redundant_tables"),
    (Group::Footer, "footer"),
    (Group::LastSector, "last_sector"),
];

/// A title, and the number of a file that stands below it.
type Column = (&'static str, fn(&Held) -> u64);

/// Those before `file sectors` add up to it.
pub const COLUMNS: [Column; 8] = [
    ("served", |held| held.served),
    ("packed", |held| held.packed),
    ("hidden", |held| held.hidden),
    ("past capacity", |held| held.past_capacity),
    ("other areas", Held::other_areas),
    ("no area", Held::no_area),
    ("file sectors", |held| held.sectors),
    ("bytes past", |held| held.bytes_past),
];

/// File sectors of a grain.
pub struct Taken {
    /// Of a stored grain those that are sectors of the disk; of a packed one all.
    pub below_capacity: u64,
    pub past_capacity: u64,
}

impl Held {
    /// Of own bytes, before any grain is counted.
    pub fn of(own: &[u8], grain_size: Option<u64>) -> Result<Held, Failure> {
        let mut held = Held {
            grain_size,
            sectors: own.len() as u64 / SECTOR,
            bytes_past: own.len() as u64 % SECTOR,
            ..Held::default()
        };
        if grain_size.is_some() {
            held.frame(own)?;
        }
        Ok(held)
    }

    fn frame(&mut self, own: &[u8]) -> Result<(), Failure> {
        let refused = |why| Failure::Refused(Refusal::new(why, None));
        for area in anhkhovet::frame(own).map_err(refused)? {
            for (sum, (group, _)) in self.areas.iter_mut().zip(GROUPS) {
                *sum += if group == area.group { area.sectors } else { 0 };
            }
        }
        Ok(())
    }

    /// What a stored grain takes of which so many sectors are the disk's.
    pub fn stored(&self, sectors: u64) -> Taken {
        Taken {
            below_capacity: sectors,
            past_capacity: self.grain_size.unwrap_or(sectors) - sectors,
        }
    }

    /// Counts a grain that the disk is served from.
    pub fn serve(&mut self, source: Source, taken: Taken) {
        let sectors = match source {
            Source::Packed { .. } => &mut self.packed,
            _ => &mut self.served,
        };
        *sectors += taken.below_capacity;
        self.past_capacity += taken.past_capacity;
    }

    /// Counts a grain that a layer above hides.
    pub fn hide(&mut self, taken: Taken) {
        self.hidden += taken.below_capacity;
        self.past_capacity += taken.past_capacity;
    }

    fn other_areas(&self) -> u64 {
        self.areas.iter().sum()
    }

    fn no_area(&self) -> u64 {
        let grains = self.served + self.packed + self.hidden + self.past_capacity;
        self.sectors - grains - self.other_areas()
    }

    /// The columns, and the areas that are no grains one by one.
    pub fn object(&self) -> Value {
        let mut object = json!({});
        for (title, count) in COLUMNS {
            object[title.replace(' ', "_")] = json!(count(self));
        }
        for (sectors, (_, group)) in self.areas.iter().zip(GROUPS) {
            object["areas"][group] = json!(sectors);
        }
        object
    }
}
