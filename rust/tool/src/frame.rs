//! What decides, copied into own bytes: the frame of an image, found by asking the library on what is copied so far.
//!
//! A law of the library says that two images of one length that agree in the frame of the one, but for its descriptor, and in the
//! markers if it is packed, have the same check and the same lookups. So own bytes that have these answer as the file does.

use crate::entries::copy_directory;
use crate::failure::Failure;
use crate::layer::Layer;
use crate::own::Own;
use anhkhovet::{Area, Group, MisplacedPart, Refusal, SECTOR};
use std::collections::HashSet;

/// Here are header and footer: the first sector; a footer and the sector after it are the last 1,024 bytes of whole sectors.
const FIRST: usize = 512;
const LAST: usize = 1536;

/// Of a file that stands still the second list has all that there is, and the third is the same.
const ROUNDS: usize = 4;

/// Copies the frame, as `frame` lists it, into own bytes that are zero, and lists the areas that were copied, or says why there
/// is none.
pub fn copy(
    layer: &Layer,
    own: &mut [u8],
    frame: impl Fn(&[u8]) -> Result<Vec<Area>, Refusal>,
) -> Result<Result<Vec<Area>, Refusal>, Failure> {
    copy_ends(layer, own)?;
    let mut copied = HashSet::new();
    for _ in 0..ROUNDS {
        let mut areas = match frame(own) {
            Ok(areas) => areas,
            Err(refusal) => return lowest(layer, own, refusal).map(Err),
        };
        // Its bytes decide nothing, and a header may give it a whole disk.
        areas.retain(|area| area.group != Group::Descriptor);
        let new: Vec<_> = areas
            .iter()
            .map(|area| (area.first, area.first + area.sectors))
            .filter(|part| copied.insert(*part))
            .collect();
        if new.is_empty() {
            return Ok(Ok(areas));
        }
        copy_parts(layer, own, new)?;
    }
    // Areas that overlap are copied twice, and were not the same both times.
    Err(Failure::changed(&layer.path))
}

/// A refusal with the lowest part. Header and footer tell of the first three; but a redundant table may be named by what stands at
/// either end of the file, before the directory is copied that names a primary one.
fn lowest(layer: &Layer, own: &mut [u8], refusal: Refusal) -> Result<Refusal, Failure> {
    if refusal.part() != Some(MisplacedPart::RedundantTable) {
        return Ok(refusal);
    }
    copy_directory(layer, own)?;
    let refused = anhkhovet::frame(own).err();
    refused.ok_or_else(|| Failure::changed(&layer.path))
}

/// Own bytes with header and footer alone.
pub fn ends(layer: &Layer) -> Result<Own, Failure> {
    let mut own = Own::new(layer.length() as usize)
        .map_err(Failure::system(&layer.path, "is too long to be mapped"))?;
    copy_ends(layer, own.bytes_mut())?;
    Ok(own)
}

fn copy_ends(layer: &Layer, own: &mut [u8]) -> Result<(), Failure> {
    let length = own.len();
    layer.read(0, &mut own[..FIRST.min(length)])?;
    // From the start of a sector on: a part of a marker alone would count as all of it.
    let last = length.saturating_sub(LAST) / SECTOR as usize * SECTOR as usize;
    layer.read(last as u64, &mut own[last..])
}

/// Copies parts, each from a sector to before another, as far as they lie in the file.
pub fn copy_parts(layer: &Layer, own: &mut [u8], parts: Vec<(u64, u64)>) -> Result<(), Failure> {
    let length = own.len() as u64;
    let at = |sector: u64| sector.saturating_mul(SECTOR).min(length);
    joined(parts).into_iter().try_for_each(|(first, end)| {
        let (first, end) = (at(first), at(end));
        layer.copy(first, &mut own[first as usize..end as usize])
    })
}

/// Parts in the file's order, and those that meet as one: tables mostly stand in a row.
fn joined(mut parts: Vec<(u64, u64)>) -> Vec<(u64, u64)> {
    parts.sort_unstable();
    let mut joined: Vec<(u64, u64)> = Vec::new();
    for (first, end) in parts {
        match joined.last_mut() {
            Some(before) if first <= before.1 => before.1 = before.1.max(end),
            _ => joined.push((first, end)),
        }
    }
    joined
}

#[cfg(test)]
pub mod made;

#[cfg(test)]
mod tests;
