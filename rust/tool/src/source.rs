//! Where a sector comes from, as the tool tells it.

use crate::given::{Given, Holder};
use crate::names::{name, put_name};
use anhkhovet::{Located, Source, SECTOR};
use serde_json::{json, Value};

pub fn word(source: Source) -> &'static str {
    match source {
        Source::Absent => "absent",
        Source::Zero => "zero",
        Source::Stored { .. } => "stored",
        Source::Packed { .. } => "packed",
    }
}

/// The file sector, for what has one.
pub fn file_sector(source: Source) -> Option<u64> {
    match source {
        Source::Stored { sector } | Source::Packed { sector, .. } => Some(sector),
        Source::Absent | Source::Zero => None,
    }
}

/// One sector's source, in words.
pub fn told(given: &Given, sector: u64, found: &Located) -> String {
    let Holder {
        number,
        file,
        chain,
    } = given.holder(found);
    let file = file.map_or_else(|| "ZERO, no file".to_string(), |file| name(&file));
    let place = format!("{} {number} ({file})", given.word());
    match found.source {
        Source::Absent if chain => {
            format!("sector {sector}: absent in every layer, so it reads as zeros")
        }
        Source::Absent => {
            format!("sector {sector}: absent in {place}, so it reads as zeros or from a parent")
        }
        Source::Zero => format!("sector {sector}: zero in {place}, so it reads as zeros"),
        Source::Stored { sector: at } => format!(
            "sector {sector}: stored in {place}, file sector {at}, byte offset {}",
            at * SECTOR
        ),
        Source::Packed { sector: at, size, offset } => format!(
            "sector {sector}: packed in {place}, marker at file sector {at}, byte offset {}, closed payload of {size} bytes; once unpacked it is sector {offset} of its grain",
            at * SECTOR
        ),
    }
}

/// The same as an object.
pub fn object(given: &Given, sector: u64, found: &Located) -> Value {
    let holder = given.holder(found);
    let mut object = json!({
        "sector": sector,
        "kind": word(found.source),
    });
    object[given.word()] = json!(holder.number);
    if let Some(file) = holder.file {
        put_name(&mut object, "file", &file);
    }
    if let Some(at) = file_sector(found.source) {
        object["file_sector"] = json!(at);
        object["byte_offset"] = json!(at * SECTOR);
    }
    if let Source::Packed { size, offset, .. } = found.source {
        object["size"] = json!(size);
        object["offset"] = json!(offset);
    }
    for (key, value) in given.remarks() {
        object[key] = value;
    }
    object
}
