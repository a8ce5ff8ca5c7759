//! Steps, asked for and held against the bytes themselves, and numbers that read like their answers.

use plain::{header, lookup, steps, Located, Steps, ABSENT, PACKED, STORED, ZERO};

/// A byte offset in the file, and the number that stands there.
pub type Entry = [u64; 2];

/// The entry that was not reached.
pub const NONE: Entry = [0, 0];

/// The steps of a sector, which hold together as is promised.
pub fn asked(image: &[u8], sector: u64) -> Steps {
    let steps = steps(image, sector);
    let answer = Located {
        number: steps.number,
        layer: 0,
        place: steps.place,
        kind: steps.kind,
        sector: steps.sector,
        size: steps.size,
        offset: steps.offset,
    };
    assert_eq!(answer, lookup(image, sector));
    for (at, entry) in [
        (steps.directory_at, steps.directory_entry),
        (steps.table_at, steps.table_entry),
    ] {
        let stands_there = if at == 0 { 0 } else { number(image, at) };
        assert_eq!(entry, stands_there, "{at}");
    }
    let numbers = [steps.kind, steps.sector, steps.size, steps.offset];
    if steps.number == 0 {
        assert_eq!(numbers, followed(image, sector, &steps));
    } else {
        assert_eq!(numbers, [0; 4]);
    }
    steps
}

/// Kind, sector, size and offset, as they follow from the entries, from what 1 means and from the marker.
fn followed(image: &[u8], sector: u64, steps: &Steps) -> [u64; 4] {
    // Without a table the directory entry says it all, and with one it names the table.
    let names_none = [0, steps.one_is_zero].contains(&steps.directory_entry);
    assert_eq!(steps.table_at == 0, names_none);
    let offset = sector % header(image).grain_size;
    let packed = number(image, 8) & 0x10000 != 0;
    let entry = match steps.table_at {
        0 => steps.directory_entry,
        _ => steps.table_entry,
    };
    match entry {
        0 => [ABSENT, 0, 0, 0],
        1 if steps.one_is_zero == 1 => [ZERO, 0, 0, 0],
        at if packed => [PACKED, at, number(image, at * 512 + 8), offset],
        at => [STORED, at + offset, 0, 0],
    }
}

fn number(image: &[u8], at: u64) -> u64 {
    let at = at as usize;
    u32::from_le_bytes(image[at..at + 4].try_into().unwrap()).into()
}

/// The way to an absent grain where an entry of 1 means zeros: the other answers are made from it.
pub fn way(grain: u64, directory: Entry, table: Entry) -> Steps {
    Steps {
        one_is_zero: 1,
        grain,
        directory_at: directory[0],
        directory_entry: directory[1],
        table_at: table[0],
        table_entry: table[1],
        ..Steps::default()
    }
}

/// The same where an entry of 1 is a sector.
pub fn one_is_sector(way: Steps) -> Steps {
    Steps {
        one_is_zero: 0,
        ..way
    }
}

pub fn zero(way: Steps) -> Steps {
    Steps { kind: ZERO, ..way }
}

pub fn stored(sector: u64, way: Steps) -> Steps {
    Steps {
        kind: STORED,
        sector,
        ..way
    }
}

pub fn packed([sector, size, offset]: [u64; 3], way: Steps) -> Steps {
    Steps {
        kind: PACKED,
        sector,
        size,
        offset,
        ..way
    }
}

pub fn refused(number: u64, place: u64, way: Steps) -> Steps {
    Steps {
        number,
        place,
        ..way
    }
}

/// A refusal before the way starts.
pub fn nothing(number: u64) -> Steps {
    refused(number, 0, Steps::default())
}
