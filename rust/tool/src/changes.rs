//! The entries that differ, and what each of the two means: the library says that with the one or the other in place.

use crate::entries::with_entry;
use crate::failure::Failure;
use crate::files::Layers;
use crate::source::word;
use anhkhovet::{Change, Disk, Refusal, Source};
use serde_json::{json, Value};
use std::ops::Range;

/// An entry, and what the sectors of its grain are by it.
pub struct Entry {
    pub number: u64,
    /// What a lookup says.
    pub source: Result<Source, Refusal>,
    /// The bytes in the file of what is stored or packed.
    pub bytes: Range<u64>,
}

pub struct Changed {
    pub grain: u64,
    /// The grain's sectors below capacity.
    pub first: u64,
    pub sectors: u64,
    pub old: Entry,
    pub new: Entry,
}

impl Changed {
    pub fn of(image: &mut Layers, disk: Disk, change: Change) -> Result<Changed, Failure> {
        let first = change.grain * disk.grain_size;
        let sectors = disk.grain_size.min(disk.capacity - first);
        let mut entry = |number| {
            let last = first + sectors - 1;
            with_entry(image.bytes_mut(0), change.grain, number, |own| {
                let [start, end] = [first, last].map(|sector| anhkhovet::read_part(own, sector));
                Entry {
                    number,
                    source: anhkhovet::lookup(own, first),
                    bytes: start.start as u64..end.end as u64,
                }
            })
            .ok_or_else(|| Failure::changed(image.path(0)))
        };
        Ok(Changed {
            grain: change.grain,
            first,
            sectors,
            old: entry(change.old)?,
            new: entry(change.new)?,
        })
    }

    pub fn line(&self) -> String {
        let (old, new) = (&self.old, &self.new);
        format!(
            "{:>12} {:>12} {:>12} {:>12} {:<10} {:>12} {}\n",
            self.grain,
            self.first,
            self.sectors,
            old.number,
            old.word(),
            new.number,
            new.word()
        )
    }

    pub fn object(&self) -> Value {
        json!({
            "grain": self.grain,
            "first": self.first,
            "sectors": self.sectors,
            "old": self.old.object(),
            "new": self.new.object(),
        })
    }
}

/// What stands above the lines.
pub const TITLES: &str =
    "       grain        first      sectors    old entry means         new entry means\n";

impl Entry {
    fn word(&self) -> String {
        match self.source {
            Ok(source) => word(source).to_string(),
            Err(refusal) => format!("refused {}", refusal.number),
        }
    }

    fn object(&self) -> Value {
        let mut object = json!({ "entry": self.number });
        match self.source {
            Ok(source) => object["kind"] = json!(word(source)),
            Err(refusal) => object["refused"] = refused(&refusal),
        }
        if let Ok(Source::Packed { size, .. }) = self.source {
            object["size"] = json!(size);
        }
        object
    }
}

fn refused(refusal: &Refusal) -> Value {
    json!({
        "number": refusal.number,
        "place": refusal.place,
        "sentence": refusal.sentence(),
    })
}
