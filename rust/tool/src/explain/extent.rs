//! The extent of a disk of several files that holds a sector, and how a sector is found in one that is no image.

use super::step::Step;
use crate::names::name;
use crate::split::Split;
use anhkhovet::{ExtentKind, Source, SECTOR};
use serde_json::{json, Value};
use std::path::PathBuf;

pub struct Placed {
    /// The extent, from 0.
    number: usize,
    /// The sector's number in it.
    pub inside: u64,
    heading: String,
    steps: Vec<Step>,
    /// What the descriptor's line says.
    line: Value,
}

impl Placed {
    /// Nothing where no extent holds the sector. The source is none where the extent is refused.
    pub fn of(split: &Split, sector: u64, source: Option<Source>) -> Option<Placed> {
        let disk = &split.disk;
        let number = anhkhovet::find(&disk.extents, sector).ok()?;
        let extent = &disk.extents[number];
        let (first, inside) = (extent.first, sector - extent.first);
        let last = first + extent.sectors - 1;
        let words = format!("{number} has the disk's sectors {first} to {last}, so there it is sector {sector} - {first} = {inside}");
        let mut steps = vec![Step::of("extent", words)];
        steps.extend(source.and_then(|source| plain(extent.kind, extent.offset, inside, source)));
        let count = match disk.extents.len() {
            1 => "1 extent".to_string(),
            count => format!("{count} extents"),
        };
        let disk_name = name(&disk.file.path);
        Some(Placed {
            number,
            inside,
            heading: format!("sector {sector} of {disk_name}, a disk of {count}\n"),
            steps,
            line: disk.object(number),
        })
    }

    /// The own bytes of the extent's file and its path, where the line says that it is an image.
    pub fn image<'a>(&self, split: &'a Split) -> Option<(&'a [u8], PathBuf)> {
        let image = split.disk.extents[self.number].kind == ExtentKind::Sparse;
        let (own, _) = *split.parts().first().filter(|_| image)?;
        Some((own, split.disk.path(self.number)?))
    }

    pub fn lines(&self) -> String {
        let steps: String = self.steps.iter().map(Step::line).collect();
        self.heading.clone() + &steps
    }

    pub fn object(&self) -> Value {
        let mut object = self.line.clone();
        object["extent"] = json!(self.number);
        object["sector"] = json!(self.inside);
        object["steps"] = self.steps.iter().map(Step::object).collect();
        object
    }
}

/// The last step in an extent without tables.
fn plain(kind: ExtentKind, offset: u64, inside: u64, source: Source) -> Option<Step> {
    match (kind, source) {
        (ExtentKind::Sparse, _) => None,
        (_, Source::Stored { sector }) => {
            let words = format!(
                "{} has its sectors in a row, by its line from file sector {offset} on: file sector {offset} + {inside} = {sector}, at byte {SECTOR} x {sector} = {}",
                kind.word(),
                SECTOR * sector
            );
            Some(Step::of("stored", words))
        }
        _ => {
            let words = format!("{} has no file, and every byte of it is 0", kind.word());
            Some(Step::of("zero", words))
        }
    }
}
