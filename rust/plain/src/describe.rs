//! The descriptor: refusals 30 to 36 and 21, and the search in a list of extents.

use crate::answers::{refusal, Described, Extent, Found, Refusal};
use crate::line::{access, extent, Piece};

/// The longest descriptor, zero bytes counted.
pub const MOST_TEXT: usize = 65_536;
/// The most extents of one descriptor.
pub const MOST_EXTENTS: usize = 32;

const MOST_SECTORS: u64 = 1 << 31;

/// The public call, for a lent list of `room` records: the answer, and the records that the list then starts with.
pub fn descriptor(text: &[u8], room: usize) -> (Described, Vec<Extent>) {
    match judge(text, room) {
        Ok(answer) => answer,
        Err(refusal) => {
            let described = Described {
                number: refusal.number,
                place: refusal.place,
                ..Described::default()
            };
            (described, Vec::new())
        }
    }
}

/// The keys that come once each, as far as they were met.
#[derive(Default)]
struct Keys {
    version: Option<u64>,
    cid: Option<u64>,
    parent_cid: Option<u64>,
    /// Place and length.
    create_type: Option<(u64, u64)>,
}

/// What the text says and its extents, or its refusal.
pub fn judge(text: &[u8], room: usize) -> Result<(Described, Vec<Extent>), Refusal> {
    if text.len() > MOST_TEXT {
        return Err(refusal(36));
    }
    let end = text
        .iter()
        .position(|byte| *byte == 0)
        .unwrap_or(text.len());
    if text[end..].iter().any(|byte| *byte != 0) {
        return Err(refusal(31));
    }
    let lines = lines(&text[..end]);
    let first = match lines.iter().position(|line| !line.bytes.is_empty()) {
        Some(first) if lines[first].is("# Disk DescriptorFile") => first,
        _ => return Err(refusal(30)),
    };

    let mut keys = Keys::default();
    let mut extents = Vec::new();
    for (index, line) in lines.iter().enumerate().skip(first + 1) {
        if line.bytes.is_empty() || line.bytes[0] == b'#' {
            continue;
        }
        let judged = match access(*line) {
            Some(access) => extent(*line, access).map(|e| extents.push(e)).ok_or(34),
            None => key_line(*line, &mut keys),
        };
        judged.map_err(|number| Refusal {
            number,
            place: index as u64 + 1,
        })?;
    }

    let missing = || refusal(33);
    let version = keys.version.ok_or_else(missing)?;
    let cid = keys.cid.ok_or_else(missing)?;
    let parent_cid = keys.parent_cid.ok_or_else(missing)?;
    let (type_at, type_length) = keys.create_type.ok_or_else(missing)?;

    let mut sum = 0;
    for extent in &mut extents {
        extent.first = sum;
        sum += extent.sectors;
    }
    if extents.is_empty() || extents.len() > MOST_EXTENTS || sum > MOST_SECTORS {
        return Err(refusal(35));
    }
    if extents.len() > room {
        return Err(refusal(21));
    }
    let described = Described {
        extents: extents.len() as u64,
        version,
        cid,
        parent_cid,
        type_at,
        type_length,
        ..Described::default()
    };
    Ok((described, extents))
}

/// The text's lines, trimmed, empty ones too.
fn lines(text: &[u8]) -> Vec<Piece<'_>> {
    let mut at = 0;
    let mut lines = Vec::new();
    for bytes in text.split(|byte| *byte == b'\n') {
        lines.push(Piece { at, bytes }.trimmed());
        at += bytes.len() + 1;
    }
    lines
}

/// A line that is no extent; its refusal number where it is at fault.
fn key_line(line: Piece, keys: &mut Keys) -> Result<(), u64> {
    let (key, value) = line.split_at(b'=').ok_or(32_u64)?;
    let (key, value) = (key.trimmed(), value.trimmed());
    if key.bytes.is_empty() {
        return Err(32);
    }
    if key.is("version") {
        once(&mut keys.version, value.decimal(1, 3))
    } else if key.is("CID") {
        once(&mut keys.cid, value.digits(16, 8))
    } else if key.is("parentCID") {
        once(&mut keys.parent_cid, value.digits(16, 8))
    } else if key.is("createType") {
        once(&mut keys.create_type, create_type(value))
    } else {
        Ok(())
    }
}

/// A required key's value: refused where it is malformed or the key was met before.
fn once<T>(slot: &mut Option<T>, value: Option<T>) -> Result<(), u64> {
    if slot.is_some() || value.is_none() {
        return Err(33);
    }
    *slot = value;
    Ok(())
}

/// Place and length of what stands between the quotes, which is all of the value.
fn create_type(value: Piece) -> Option<(u64, u64)> {
    let (name, rest) = value.quoted()?;
    if !rest.bytes.is_empty() {
        return None;
    }
    Some((name.at as u64, name.bytes.len() as u64))
}

/// The public call: the first record whose sectors hold `sector`. Ends are counted exactly, in u128.
pub fn find(list: &[Extent], sector: u64) -> Found {
    let sector = u128::from(sector);
    let holds = |extent: &Extent| {
        let first = u128::from(extent.first);
        first <= sector && sector < first + u128::from(extent.sectors)
    };
    match list.iter().position(holds) {
        Some(index) => Found {
            extent: index as u64,
            ..Found::default()
        },
        None => Found {
            number: 20,
            ..Found::default()
        },
    }
}
