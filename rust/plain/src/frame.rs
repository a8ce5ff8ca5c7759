//! The frame: the areas of an image but its grains, in request A6's order. Refusals: the header's, 8, then 21.

use crate::answers::{outside, refusal, Framed, Outside, Refusal};
use crate::header::Header;
use crate::image::{Entry, Image};
use crate::numbers::past;

/// The group of an area, by its number in the list.
#[derive(Clone, Copy)]
pub enum Group {
    Header = 1,
    Descriptor = 2,
    Directory = 3,
    RedundantDirectory = 4,
    PrimaryTable = 5,
    RedundantTable = 6,
    Footer = 7,
    LastSector = 8,
}

/// An area: its group, its first sector and its sectors, of which there is at least one.
pub struct Area {
    pub group: Group,
    pub first: u64,
    pub sectors: u64,
}

/// The public call: the list starts with three words for each area; all others, or on a refusal all, keep what they held.
pub fn frame(bytes: &[u8], list: &mut [u64]) -> Framed {
    match words(bytes, list.len()) {
        Ok(words) => {
            list[..words.len()].copy_from_slice(&words);
            Framed {
                count: words.len() as u64 / 3,
                ..Framed::default()
            }
        }
        Err(refusal) => Framed {
            number: refusal.number,
            place: refusal.place,
            count: 0,
        },
    }
}

/// What a list of `room` words is to start with.
fn words(bytes: &[u8], room: usize) -> Result<Vec<u64>, Refusal> {
    let mut words = Vec::new();
    for area in areas(&framed(bytes)?) {
        words.extend([area.group as u64, area.first, area.sectors]);
    }
    if room < words.len() {
        return Err(refusal(21));
    }
    Ok(words)
}

/// The KDMV image, if its header and its areas but the grains pass their rules.
pub fn framed(bytes: &[u8]) -> Result<Image<'_>, Refusal> {
    let image = Image::judged(bytes)?;
    judge_areas(&image)?;
    Ok(image)
}

/// Refusal 8. Areas are judged by their places from 1 to 5, so that the place is the lowest that applies.
pub fn judge_areas(image: &Image) -> Result<(), Refusal> {
    let header = &image.header;
    judge_descriptor(image)?;
    image.judge_directory()?;
    judge_redundant(image)?;
    for table in tables(image, header.directory) {
        image.judge_table(table, Outside::PrimaryTable)?;
    }
    for table in tables(image, header.redundant) {
        image.judge_table(table, Outside::RedundantTable)?;
    }
    Ok(())
}

/// The descriptor's part of 8: one number zero and one not, or past F.
fn judge_descriptor(image: &Image) -> Result<(), Refusal> {
    if !descriptor_within(&image.header, image.sectors()) {
        return Err(outside(Outside::Descriptor));
    }
    Ok(())
}

/// Whether there is no descriptor, or one that has both its numbers and lies below sector `end`.
pub fn descriptor_within(header: &Header, end: u64) -> bool {
    let (first, sectors) = (header.descriptor, header.descriptor_sectors);
    (first == 0) == (sectors == 0) && !past(first, sectors, end)
}

/// The redundant directory's part of 8: there is one, and it runs past F.
fn judge_redundant(image: &Image) -> Result<(), Refusal> {
    let (first, sectors) = (image.header.redundant, image.header.directory_sectors());
    if first != 0 && past(first, sectors, image.sectors()) {
        return Err(outside(Outside::RedundantDirectory));
    }
    Ok(())
}

/// The sectors of the tables that the directory at sector `at` names, by entry; a directory at sector 0 is none.
fn tables(image: &Image, at: u64) -> Vec<u64> {
    let mut tables = Vec::new();
    if at != 0 {
        for entry in image.directory(at) {
            if let Entry::Sector(table) = entry {
                tables.push(table);
            }
        }
    }
    tables
}

/// The areas of an image that passed 8: group by group and, inside a group, by entry.
pub fn areas(image: &Image) -> Vec<Area> {
    let header = &image.header;
    let mut areas = Vec::new();
    let mut add = |group, first, sectors| {
        areas.push(Area {
            group,
            first,
            sectors,
        });
    };
    add(Group::Header, 0, header.header_sectors());
    if header.descriptor != 0 {
        let sectors = header.descriptor_sectors;
        add(Group::Descriptor, header.descriptor, sectors);
    }
    let sectors = header.directory_sectors();
    add(Group::Directory, header.directory, sectors);
    if header.redundant != 0 {
        add(Group::RedundantDirectory, header.redundant, sectors);
    }
    for table in tables(image, header.directory) {
        add(Group::PrimaryTable, table, header.table_sectors());
    }
    for table in tables(image, header.redundant) {
        add(Group::RedundantTable, table, header.table_sectors());
    }
    if header.footer {
        add(Group::Footer, image.sectors() - 2, 1);
        add(Group::LastSector, image.sectors() - 1, 1);
    }
    areas
}
