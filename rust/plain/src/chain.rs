//! The chain lookup.

use crate::answers::{refusal, Located};
use crate::header::judge;
use crate::lookup::{located, source, Source};

const MOST_LAYERS: usize = 16;

/// The public call: `layers` end to end, base first, and their lengths.
pub fn chain(layers: &[u8], lengths: &[u64], sector: u64) -> Located {
    let parts = match parts(layers, lengths, MOST_LAYERS) {
        Some(parts) => parts,
        None => return located(Err(refusal(24)), 0),
    };
    let mut headers = Vec::new();
    for (layer, part) in parts.iter().enumerate().rev() {
        match judge(part) {
            Ok(header) => headers.push(header),
            Err(refusal) => return located(Err(refusal), layer as u64),
        }
    }
    let (capacity, grain_size) = (headers[0].capacity, headers[0].grain_size);
    if headers
        .iter()
        .any(|header| header.capacity != capacity || header.grain_size != grain_size)
    {
        return located(Err(refusal(22)), 0);
    }
    if sector >= capacity {
        return located(Err(refusal(20)), 0);
    }
    for (layer, part) in parts.iter().enumerate().rev() {
        let answer = source(part, sector);
        if answer != Ok(Source::Absent) {
            return located(answer, layer as u64);
        }
    }
    located(Ok(Source::Absent), 0)
}

/// The parts, at most `most`, end to end; nothing where their count or lengths break rule 24. The sum is exact, so it can't
/// wrap to the right one.
pub fn parts<'a>(bytes: &'a [u8], lengths: &[u64], most: usize) -> Option<Vec<&'a [u8]>> {
    if lengths.is_empty() || lengths.len() > most {
        return None;
    }
    let sum: u128 = lengths.iter().map(|length| u128::from(*length)).sum();
    if sum != bytes.len() as u128 {
        return None;
    }
    let mut rest = bytes;
    let mut parts = Vec::new();
    for length in lengths {
        let (part, after) = rest.split_at(*length as usize);
        parts.push(part);
        rest = after;
    }
    Some(parts)
}
