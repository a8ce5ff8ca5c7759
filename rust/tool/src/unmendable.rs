//! Why an image cannot be mended from a side: one number stands for four grounds, and the library tells them apart when it is
//! asked on bytes in which one of them is left.

use crate::checked::checked;
use crate::files::Layers;
use crate::mended::other;
use anhkhovet::{Area, Group, Side, SECTOR};
use std::ops::Range;

/// The refusal of directories or tables that are not alike.
const UNLIKE: u64 = 11;

const UNPAIRED: &str = "its directories do not name tables in the same places";

/// The ground of a refusal. The own bytes are spoilt by that.
pub fn ground(image: &mut Layers, good: Side) -> String {
    let frame = image.frame(0).to_vec();
    let copied = |area: &Area| area.group == Group::RedundantDirectory;
    if !frame.iter().any(copied) {
        return "it has no redundant directory".to_string();
    }
    if let Some(told) = meeting(frame.clone()) {
        return told;
    }
    let [from, to] = [good, other(good)].map(|side| places(&frame, side));
    so_mended(image.bytes_mut(0), &from, &to).unwrap_or_else(|| UNPAIRED.to_string())
}

/// The bytes of each table of a side.
fn places(frame: &[Area], side: Side) -> Vec<Range<usize>> {
    let group = match side {
        Side::Primary => Group::PrimaryTable,
        Side::Redundant => Group::RedundantTable,
    };
    let tables = frame.iter().filter(|area| area.group == group);
    let bytes = |sector: u64| (sector * SECTOR) as usize;
    tables
        .map(|table| bytes(table.first)..bytes(table.first + table.sectors))
        .collect()
}

/// What the image would be refused for; nothing where tables do not stand in the same places of the directories.
fn so_mended(own: &mut [u8], from: &[Range<usize>], to: &[Range<usize>]) -> Option<String> {
    if from.len() != to.len() {
        return None;
    }
    for (good, other) in from.iter().zip(to) {
        own.copy_within(good.clone(), other.start);
    }
    let refused = checked(own).err()?;
    // With empty tables on both sides nothing but the directories can differ.
    for table in from.iter().chain(to) {
        own[table.clone()].fill(0);
    }
    let unpaired = matches!(checked(own), Err(why) if why.number == UNLIKE);
    (!unpaired).then(|| format!("so mended it would be {refused}"))
}

fn word(group: Group) -> &'static str {
    match group {
        Group::Header => "the header",
        Group::Descriptor => "the descriptor",
        Group::Directory => "the directory",
        Group::RedundantDirectory => "the redundant directory",
        Group::PrimaryTable => "a primary table",
        Group::RedundantTable => "a redundant table",
        Group::Footer => "the footer",
        Group::LastSector => "the last sector",
    }
}

/// The first two areas that share a sector.
fn meeting(mut areas: Vec<Area>) -> Option<String> {
    areas.sort_by_key(|area| area.first);
    let shared = |pair: &&[Area]| pair[0].first + pair[0].sectors > pair[1].first;
    let pair = areas.windows(2).find(shared)?;
    let (one, another) = (word(pair[0].group), word(pair[1].group));
    Some(format!(
        "file sector {} is in {one} and in {another}",
        pair[1].first
    ))
}
