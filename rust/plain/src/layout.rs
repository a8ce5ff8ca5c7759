//! The two layouts that are written: document 01's collapsed image, and the COWD normal form of request A9.

use crate::answers::{refusal, Refusal};
use crate::header::Kind;
use crate::image::{Entry, Image};
use crate::numbers::{put32, put64, up, SECTOR};

/// What one grain of the result is.
enum Grain<'a> {
    Absent,
    Zero,
    /// The bytes of its sectors below capacity.
    Stored(&'a [u8]),
}

/// The numbers of a result; places are sectors.
struct Layout {
    kind: Kind,
    capacity: u64,
    grain_size: u64,
    grains: u64,
    /// n, by the entries that a table of this kind has.
    entries: u64,
    directory: u64,
    first_table: u64,
    first_grain: u64,
}

/// The result of accepted and clean layers, topmost first, which agree in capacity and grain size, as an image of `kind` for an
/// output of `room` bytes. COWD has no entry for a zero grain: on the way there no layer has one.
pub fn laid_down(layers: &[Image], kind: Kind, room: usize) -> Result<Vec<u8>, Refusal> {
    let layout = layout(&layers[0], kind);
    // A room that even an empty image overflows is refused before all grains are looked at.
    if (room as u64) < layout.first_grain * SECTOR {
        return Err(refusal(21));
    }
    let sectors = layout.first_grain + stored(layers, &layout) * layout.grain_size;
    if (room as u64) < sectors * SECTOR {
        return Err(refusal(21));
    }
    let mut out = vec![0; (sectors * SECTOR) as usize];
    match kind {
        Kind::Kdmv => put_kdmv_header(&mut out, &layout),
        Kind::Cowd => put_cowd_header(&mut out, &layout, sectors),
    }
    put_directory(&mut out, &layout);
    put_grains(&mut out, &layout, layers);
    Ok(out)
}

/// The layout of a result of `kind` that has this image's capacity and grain size.
fn layout(image: &Image, kind: Kind) -> Layout {
    let (capacity, grain_size) = (image.header.capacity, image.header.grain_size);
    let entries = up(capacity, kind.entries_per_table() * grain_size);
    let directory = kind.header_sectors();
    let first_table = directory + up(entries * 4, SECTOR);
    let after_tables = first_table + entries * kind.table_sectors();
    let first_grain = match kind {
        Kind::Kdmv => up(after_tables, grain_size) * grain_size,
        Kind::Cowd => after_tables,
    };
    Layout {
        kind,
        capacity,
        grain_size,
        grains: image.header.grains(),
        entries,
        directory,
        first_table,
        first_grain,
    }
}

/// How many grains of the result are stored.
fn stored(layers: &[Image], layout: &Layout) -> u64 {
    let is_stored = |grain: &u64| matches!(topmost(layers, *grain), Grain::Stored(_));
    (0..layout.grains).filter(is_stored).count() as u64
}

/// Sector 0 of document 01's collapsed image: version 2, flags 5, tables of 512 entries, overhead V.
fn put_kdmv_header(out: &mut [u8], layout: &Layout) {
    out[..4].copy_from_slice(&[0x4b, 0x44, 0x4d, 0x56]);
    put32(out, 4, 2);
    put32(out, 8, 5);
    put64(out, 12, layout.capacity);
    put64(out, 20, layout.grain_size);
    put32(out, 44, 512);
    put64(out, 56, layout.directory);
    put64(out, 64, layout.first_grain);
    out[73..77].copy_from_slice(&[0x0a, 0x20, 0x0d, 0x0a]);
}

/// The header of a COWD normal form of so many sectors: version 1, flags 3, and at 28 the sectors themselves.
fn put_cowd_header(out: &mut [u8], layout: &Layout, sectors: u64) {
    out[..4].copy_from_slice(&[0x43, 0x4f, 0x57, 0x44]);
    put32(out, 4, 1);
    put32(out, 8, 3);
    put32(out, 12, layout.capacity);
    put32(out, 16, layout.grain_size);
    put32(out, 20, layout.directory);
    put32(out, 24, layout.entries);
    put32(out, 28, sectors);
}

/// A table for each of the n entries, whether it names a grain or not.
fn put_directory(out: &mut [u8], layout: &Layout) {
    for table in 0..layout.entries {
        let at = layout.first_table + table * layout.kind.table_sectors();
        put32(out, layout.directory * SECTOR + table * 4, at);
    }
}

/// The grains in virtual order, back to back, and their entries.
fn put_grains(out: &mut [u8], layout: &Layout, layers: &[Image]) {
    let mut next = layout.first_grain;
    for grain in 0..layout.grains {
        let entry = match topmost(layers, grain) {
            Grain::Absent => 0,
            Grain::Zero => 1,
            Grain::Stored(bytes) => {
                let at = next;
                let start = (at * SECTOR) as usize;
                out[start..start + bytes.len()].copy_from_slice(bytes);
                next += layout.grain_size;
                at
            }
        };
        // Tables stand back to back and each is full of entries, so grain g's entry is the g-th from the first on.
        put32(out, layout.first_table * SECTOR + grain * 4, entry);
    }
}

/// A grain is the topmost layer's that isn't absent there.
fn topmost<'a>(layers: &[Image<'a>], grain: u64) -> Grain<'a> {
    for layer in layers {
        match of_layer(layer, grain) {
            Grain::Absent => {}
            found => return found,
        }
    }
    Grain::Absent
}

fn of_layer<'a>(image: &Image<'a>, grain: u64) -> Grain<'a> {
    let header = &image.header;
    let mut entry = image.entry(header.directory, grain / header.entries_per_table());
    if let Entry::Sector(table) = entry {
        entry = image.grain_entry(table, grain);
    }
    match entry {
        Entry::Absent => Grain::Absent,
        Entry::Zero => Grain::Zero,
        Entry::Sector(at) => {
            let below_capacity = header
                .grain_size
                .min(header.capacity - grain * header.grain_size);
            let start = (at * SECTOR) as usize;
            Grain::Stored(&image.bytes[start..start + (below_capacity * SECTOR) as usize])
        }
    }
}
