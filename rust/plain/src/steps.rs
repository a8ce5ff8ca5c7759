//! How the lookup comes to its answer, as a person does it by hand: the entries that it reads, and where they stand.

use crate::answers::{Outside, Steps};
use crate::image::{entry_at, Entry, Image};
use crate::lookup::lookup;
use crate::numbers::number;

/// The public call.
pub fn steps(image: &[u8], sector: u64) -> Steps {
    let found = lookup(image, sector);
    Steps {
        number: found.number,
        place: found.place,
        kind: found.kind,
        sector: found.sector,
        size: found.size,
        offset: found.offset,
        ..way(image, sector)
    }
}

/// The way to the grain that a sector leads to, whatever is found there, in the numbers between `place` and `kind`: it ends
/// before a directory or a table that is outside the file, and at a directory entry that names no table.
fn way(bytes: &[u8], sector: u64) -> Steps {
    let mut way = Steps::default();
    let image = match Image::judged(bytes) {
        Ok(image) if sector < image.header.capacity => image,
        _ => return way,
    };
    let header = &image.header;
    let grain = sector / header.grain_size;
    way.one_is_zero = header.one_is_zero.into();
    way.grain = grain;
    if image.judge_directory().is_err() {
        return way;
    }
    let index = grain / header.entries_per_table();
    way.directory_at = entry_at(header.directory, index);
    way.directory_entry = number(bytes, way.directory_at, 4);
    let table = match image.entry(header.directory, index) {
        Entry::Sector(table) => table,
        Entry::Absent | Entry::Zero => return way,
    };
    if image.judge_table(table, Outside::PrimaryTable).is_ok() {
        way.table_at = image.grain_entry_at(table, grain);
        way.table_entry = image.grain_number(table, grain);
    }
    way
}
