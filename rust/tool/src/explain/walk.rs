//! The way to a sector in one image, as a person goes it by hand: header, grain, directory, table and what the entry leads to.
//!
//! Entries, their places and what they lead to are the library's; the bytes beside them are those that it was asked on.

use super::end::{end, refused, Below};
use super::step::{Standing, Step};
use crate::entries::{ENTRIES, ENTRY};
use anhkhovet::{Disk, Refusal, Source, Way, SECTOR};
use serde_json::{json, Value};

/// Fields of the header: first byte and length.
const VERSION: (u64, usize) = (4, 4);
const FLAGS: (u64, usize) = (8, 4);
const GRAIN_SIZE: (u64, usize) = (20, 8);
const DIRECTORY: (u64, usize) = (56, 8);

/// The directory sector of an image that has a footer.
const AT_END: u64 = u64::MAX;

/// What is known of an image and a sector of it.
pub struct Known<'a> {
    pub own: &'a [u8],
    pub sector: u64,
    pub disk: Disk,
    pub way: Way,
    /// The directory's sector as header or footer have it.
    pub directory: u64,
}

pub struct Walk {
    /// The sector in this image: of an extent it is another one than the disk's.
    pub sector: u64,
    grain_size: u64,
    way: Way,
    pub end: Result<Source, Refusal>,
    steps: Vec<Step>,
}

impl Walk {
    /// Nothing where the lookup is refused before it comes to the grain.
    pub fn of(own: &[u8], sector: u64, below: Below) -> Option<Walk> {
        let (way, end) = match anhkhovet::steps(own, sector) {
            Ok(steps) => (steps.way, Ok(steps.source)),
            Err(refused) => (refused.way?, Err(refused.refusal)),
        };
        let disk = anhkhovet::header(own).ok()?.disk;
        let (mut steps, directory) = header(own);
        let known = Known {
            own,
            sector,
            disk,
            way,
            directory,
        };
        steps.push(known.grain());
        steps.extend(known.directory());
        steps.extend(known.table());
        steps.extend(known.ending(end, below));
        Some(Walk {
            sector,
            grain_size: disk.grain_size,
            way,
            end,
            steps,
        })
    }

    pub fn lines(&self) -> String {
        self.steps.iter().map(Step::line).collect()
    }

    pub fn object(&self) -> Value {
        let entry = |step: anhkhovet::Step| json!({ "offset": step.at, "entry": step.entry });
        json!({
            "sector": self.sector,
            "grain_size": self.grain_size,
            "grain": self.way.grain,
            "sector_of_grain": self.sector % self.grain_size,
            "one_is_zero": self.way.one_is_zero,
            "directory": self.way.directory.map(entry),
            "table": self.way.table.map(entry),
            "steps": self.steps.iter().map(Step::object).collect::<Vec<_>>(),
        })
    }
}

/// What the header tells before anything is counted, and the directory's sector.
fn header(own: &[u8]) -> (Vec<Step>, u64) {
    const BEGINS: &str = ", the file sector where the directory begins";
    let size = field(own, GRAIN_SIZE);
    let words = size.words("") + ", the sectors of a grain";
    let size = Step::by("header", words, size);
    let directory = field(own, DIRECTORY);
    if directory.number != AT_END {
        let (sector, words) = (directory.number, directory.words("") + BEGINS);
        return (vec![size, Step::by("header", words, directory)], sector);
    }
    let words = directory.placed("") + ", all ones: the footer tells where the directory begins";
    let header = Step::by("header", words, directory);
    let footer = (own.len() as u64 / SECTOR).saturating_sub(2);
    let (at, length) = DIRECTORY;
    let told = Standing::of(own, SECTOR * footer + at, length);
    let words = told.words(&format!("{SECTOR} x {footer} + {at}")) + BEGINS;
    let sector = told.number;
    (vec![size, header, Step::by("footer", words, told)], sector)
}

/// A field of the header.
fn field(own: &[u8], (at, length): (u64, usize)) -> Standing {
    Standing::of(own, at, length)
}

/// The flags, with what they mean.
pub fn flags(own: &[u8], meaning: &str) -> Step {
    let flags = field(own, FLAGS);
    let words = format!(
        "{} = {:#x}, the flags: {meaning}",
        flags.placed(""),
        flags.number
    );
    Step::by("header", words, flags)
}

impl Known<'_> {
    /// The sector's number in its grain.
    pub fn offset(&self) -> u64 {
        self.sector % self.disk.grain_size
    }

    fn grain(&self) -> Step {
        let (sector, size, grain) = (self.sector, self.disk.grain_size, self.way.grain);
        let offset = self.offset();
        let words =
            format!("{sector} / {size} = {grain}, and in it sector {sector} mod {size} = {offset}");
        Step::of("grain", words)
    }

    /// The directory's entry and, where it is 1, what that means.
    fn directory(&self) -> Vec<Step> {
        let entry = match self.way.directory {
            Some(entry) => entry,
            None => return Vec::new(),
        };
        let grain = self.way.grain;
        let index = grain / ENTRIES;
        let meaning = match (entry.entry, self.way.one_is_zero) {
            (0, _) => format!("no table, so all {ENTRIES} grains of it are absent"),
            (1, true) => format!("no table: all {ENTRIES} grains of it are zeros"),
            (first, _) => format!("the table begins at file sector {first}"),
        };
        let first = (entry.at - ENTRY * index) / SECTOR;
        let counted = format!("{grain} / {ENTRIES} = {index}");
        let named = ("directory entry", counted, meaning);
        self.entry(named, first, index, entry)
    }

    /// The table's entry in the same way.
    fn table(&self) -> Vec<Step> {
        let (table, entry) = match (self.way.directory, self.way.table) {
            (Some(directory), Some(entry)) => (directory.entry, entry),
            _ => return Vec::new(),
        };
        let grain = self.way.grain;
        let index = grain % ENTRIES;
        let meaning = match (entry.entry, self.way.one_is_zero) {
            (0, _) => "the grain is absent".to_string(),
            (1, true) => "the grain is zeros".to_string(),
            (first, _) => format!("the grain begins at file sector {first}"),
        };
        let counted = format!("{grain} mod {ENTRIES} = {index}");
        let named = ("table entry", counted, meaning);
        self.entry(named, table, index, entry)
    }

    /// An entry, by its number, of what begins at a sector: its name, how its number is counted, and what it says.
    fn entry(
        &self,
        (name, counted, meaning): (&'static str, String, String),
        first: u64,
        index: u64,
        entry: anhkhovet::Step,
    ) -> Vec<Step> {
        let standing = Standing::of(self.own, entry.at, ENTRY as usize);
        let sum = format!("{SECTOR} x {first} + {ENTRY} x {index}");
        let words = format!("{counted}; {}: {meaning}", standing.words(&sum));
        let mut steps = vec![Step::by(name, words, standing)];
        if entry.entry == 1 {
            steps.extend(self.one());
        }
        steps
    }

    /// What an entry of 1 means goes by version and flags.
    fn one(&self) -> [Step; 2] {
        let version = field(self.own, VERSION);
        let words = version.words("") + ", the version";
        let meaning = match self.way.one_is_zero {
            true => "in version 2 or 3 with flag 0x4 an entry of 1 means zeros",
            false => "an entry of 1 is file sector 1, and means zeros in version 2 or 3 with flag 0x4 alone",
        };
        [Step::by("header", words, version), flags(self.own, meaning)]
    }

    fn ending(&self, found: Result<Source, Refusal>, below: Below) -> Vec<Step> {
        match found {
            Ok(source) => end(self, source, below),
            Err(refusal) => refused(self, refusal),
        }
    }
}
