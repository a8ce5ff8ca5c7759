//! Entries of directory and tables. The tool reads them by itself only to know what to copy into own bytes; what they mean, the
//! library says.

use crate::failure::Failure;
use crate::frame::copy_parts;
use crate::layer::Layer;
use crate::mended::NOT_MENDABLE;
use crate::room::up;
use anhkhovet::{Area, Group, SECTOR};
use std::ops::Range;

/// Bytes of an entry.
pub const ENTRY: u64 = 4;

/// The third byte of the flags, which has that for packed grains.
const FLAGS: usize = 10;
const PACKED: u8 = 1;

/// Refusals that may be for want of markers, and the tables that name the grains.
pub struct Unsure {
    pub numbers: &'static [u64],
    pub tables: &'static [Group],
}

/// Lookups and the check go by the primary tables alone.
pub const CHECK: Unsure = Unsure {
    numbers: &[9, 10],
    tables: &[Group::PrimaryTable],
};
pub const MEND: Unsure = Unsure {
    numbers: &[NOT_MENDABLE],
    tables: &[Group::PrimaryTable, Group::RedundantTable],
};

/// Entries of a table.
pub const ENTRIES: u64 = 512;

/// Where the directory is, and how many entries of it are in use.
struct Tables {
    directory: u64,
    used: u64,
}

impl Tables {
    /// Of own bytes that have header and footer; nothing where these are refused.
    fn of(own: &[u8]) -> Option<Tables> {
        let disk = anhkhovet::header(own).ok()?.disk;
        Some(Tables {
            directory: directory(own)?,
            used: up(disk.capacity, ENTRIES * disk.grain_size),
        })
    }

    /// The sectors of the directory's entries in use; one more where they fill the last.
    fn directory_part(&self) -> (u64, u64) {
        let sectors = self.used * ENTRY / SECTOR + 1;
        (self.directory, self.directory.saturating_add(sectors))
    }

    /// The sectors of each table that the directory names.
    fn parts(&self, own: &[u8]) -> Vec<(u64, u64)> {
        let sectors = ENTRIES * ENTRY / SECTOR;
        (0..self.used)
            .filter_map(|number| entry(own, self.directory, number))
            .map(|first| (first, first + sectors))
            .collect()
    }

    /// Where a grain's entry is: its table's sector, and its number there.
    fn grain(&self, own: &[u8], grain: u64) -> Option<(u64, u64)> {
        let table = entry(own, self.directory, grain / ENTRIES)?;
        Some((table, grain % ENTRIES))
    }
}

/// The directory's sector in the header, or in the footer where the header leaves it open.
fn directory(own: &[u8]) -> Option<u64> {
    let number = |sector: usize| {
        let bytes = own.get(sector * SECTOR as usize..)?.get(56..64)?;
        Some(u64::from_le_bytes(bytes.try_into().ok()?))
    };
    match number(0)? {
        u64::MAX => number((own.len() / SECTOR as usize).checked_sub(2)?),
        sector => Some(sector),
    }
}

/// The bytes of an entry, by its number, of what begins at a sector; nothing past the end.
fn place(own: &[u8], first: u64, number: u64) -> Option<Range<usize>> {
    let at = first.checked_mul(SECTOR)?.checked_add(ENTRY * number)?;
    let place = usize::try_from(at).ok()?..usize::try_from(at.checked_add(ENTRY)?).ok()?;
    Some(place).filter(|place| place.end <= own.len())
}

/// An entry, by its number, of what begins at a sector.
pub fn entry(own: &[u8], first: u64, number: u64) -> Option<u64> {
    let bytes = own.get(place(own, first, number)?)?;
    Some(u32::from_le_bytes(bytes.try_into().ok()?).into())
}

/// What `look` sees where a grain has another entry in the primary table, which keeps its own.
pub fn with_entry<T>(
    own: &mut [u8],
    grain: u64,
    entry: u64,
    look: impl FnOnce(&[u8]) -> T,
) -> Option<T> {
    let (table, number) = Tables::of(own)?.grain(own, grain)?;
    let place = place(own, table, number)?;
    let kept = own[place.clone()].to_vec();
    own[place.clone()].copy_from_slice(&u32::try_from(entry).ok()?.to_le_bytes());
    let seen = look(own);
    own[place].copy_from_slice(&kept);
    Some(seen)
}

/// Copies the directory, also of an image that has no list of its frame.
pub fn copy_directory(layer: &Layer, own: &mut [u8]) -> Result<(), Failure> {
    match Tables::of(own) {
        Some(tables) => copy_parts(layer, own, vec![tables.directory_part()]),
        None => Ok(()),
    }
}

/// Copies directory and tables: what a lookup reads, also in such an image.
pub fn copy_tables(layer: &Layer, own: &mut [u8]) -> Result<(), Failure> {
    copy_directory(layer, own)?;
    match Tables::of(own) {
        Some(tables) => copy_parts(layer, own, tables.parts(own)),
        None => Ok(()),
    }
}

/// Whether markers decide: by the flag of a KDMV image whose grains are packed. Elsewhere they are copied for nothing at most.
pub fn packed(own: &[u8]) -> bool {
    own.starts_with(b"KDMV") && own.get(FLAGS).map_or(false, |flags| flags & PACKED != 0)
}

/// Copies the markers of all grains that these tables name.
pub fn copy_markers<'a>(
    layer: &Layer,
    own: &mut [u8],
    mut tables: impl Iterator<Item = &'a Area>,
) -> Result<(), Failure> {
    tables.try_for_each(|table| {
        let mut entries = 0..table.sectors * SECTOR / ENTRY;
        entries.try_for_each(|number| copy_sector(layer, own, entry(own, table.first, number)))
    })
}

/// Copies the marker of one grain.
pub fn copy_marker(layer: &Layer, own: &mut [u8], grain: u64) -> Result<(), Failure> {
    let place = Tables::of(own).and_then(|tables| tables.grain(own, grain));
    let sector = place.and_then(|(table, number)| entry(own, table, number));
    copy_sector(layer, own, sector)
}

fn copy_sector(layer: &Layer, own: &mut [u8], sector: Option<u64>) -> Result<(), Failure> {
    match sector {
        // An entry of 0 names no sector. One of 1 may: where it means zeros, sector 1 is copied for nothing.
        Some(sector) if sector > 0 => copy_parts(layer, own, vec![(sector, sector + 1)]),
        _ => Ok(()),
    }
}
