//! Request A12: the tail that closes a stream that broke off. Refusals: sector 0's, then 41, then 21.

use crate::answers::{refusal, Closed, Refusal};
use crate::frame::descriptor_within;
use crate::header::judge_start;
use crate::image::Image;
use crate::numbers::{number, past, put32, put64, sector, whole_sectors, SECTOR};
use std::collections::BTreeMap;

/// The most sectors of a start.
const MOST_SECTORS: u64 = 1 << 31;

/// A marker's type, where its size is 0.
const TABLE: u64 = 1;
const DIRECTORY: u64 = 2;
const FOOTER: u64 = 3;

/// What is kept of a start.
struct Kept {
    /// Sectors, up to the end of the last grain.
    sectors: u64,
    /// Each grain's number and its marker's sector, in virtual order.
    grains: Vec<(u64, u64)>,
}

/// The public call: the output starts with the tail; bytes past it, or all on a refusal, keep what they held.
pub fn close(bytes: &[u8], out: &mut [u8]) -> Closed {
    match closed(bytes, out.len()) {
        Ok((kept, tail)) => {
            out[..tail.len()].copy_from_slice(&tail);
            Closed {
                sectors: kept.sectors,
                grains: kept.grains.len() as u64,
                length: tail.len() as u64,
                ..Closed::default()
            }
        }
        Err(refusal) => Closed {
            number: refusal.number,
            place: refusal.place,
            ..Closed::default()
        },
    }
}

/// What is kept, and the tail, for an output of `room` bytes.
fn closed(bytes: &[u8], room: usize) -> Result<(Kept, Vec<u8>), Refusal> {
    let header = judge_start(bytes)?;
    let start = Image { bytes, header };
    let overhead = overhead(&start).ok_or_else(|| refusal(41))?;
    let kept = walk(&start, overhead);
    let tail = tail(&start, &kept);
    if room < tail.len() {
        return Err(refusal(21));
    }
    Ok((kept, tail))
}

/// The overhead sector of a start that can be closed; nothing where it is 41.
fn overhead(start: &Image) -> Option<u64> {
    let header = &start.header;
    // A directory at the end has passed 5: so flag 0x20000 is set.
    if !header.footer || header.redundant != 0 || start.sectors() > MOST_SECTORS {
        return None;
    }
    let overhead = number(start.bytes, 64, 8);
    if overhead < 2 || overhead > start.sectors() {
        return None;
    }
    if !descriptor_within(header, overhead) {
        return None;
    }
    Some(overhead)
}

/// Goes from block to block until the first that it stops at.
fn walk(start: &Image, overhead: u64) -> Kept {
    let mut kept = Kept {
        sectors: overhead,
        grains: Vec::new(),
    };
    let mut at = overhead;
    while let Some(sectors) = block_sectors(start, at) {
        let (first, size) = start.marker(at);
        if size > 0 {
            let last = kept.grains.last().map(|(grain, _)| *grain);
            match next_grain(start, first, last) {
                Some(grain) => kept.grains.push((grain, at)),
                None => break,
            }
            kept.sectors = at + sectors;
        }
        at += sectors;
    }
    kept
}

/// The sectors of the block at sector `at`, its marker among them; nothing where it is of no type that goes on, or not wholly
/// there.
fn block_sectors(start: &Image, at: u64) -> Option<u64> {
    if at >= start.sectors() {
        return None;
    }
    let (_, size) = start.marker(at);
    let sectors = match number(sector(start.bytes, at), 12, 4) {
        _ if size > 0 => start.grain_sectors(at),
        TABLE => 1 + start.header.table_sectors(),
        DIRECTORY => 1 + start.header.directory_sectors(),
        _ => return None,
    };
    if past(at, sectors, start.sectors()) {
        return None;
    }
    Some(sectors)
}

/// The number of the grain whose first virtual sector this is, if it is one of the disk and above the last.
fn next_grain(start: &Image, first: u64, last: Option<u64>) -> Option<u64> {
    let header = &start.header;
    if first % header.grain_size != 0 || first >= header.capacity {
        return None;
    }
    let grain = first / header.grain_size;
    if last.map_or(false, |last| grain <= last) {
        return None;
    }
    Some(grain)
}

/// The tail: tables, directory, footer and a zero sector, each but the last with its marker before it.
fn tail(start: &Image, kept: &Kept) -> Vec<u8> {
    let header = &start.header;
    let mut tail = Vec::new();
    let mut directory = zeros(header.directory_sectors());
    for (entry, table) in tables(start, kept) {
        put_marker(&mut tail, TABLE, header.table_sectors());
        let at = kept.sectors + whole_sectors(&tail);
        put32(&mut directory, entry * 4, at);
        tail.extend(table);
    }
    put_marker(&mut tail, DIRECTORY, header.directory_sectors());
    let mut footer = sector(start.bytes, 0).to_vec();
    put64(&mut footer, 56, kept.sectors + whole_sectors(&tail));
    tail.extend(directory);
    put_marker(&mut tail, FOOTER, 0);
    tail.extend(footer);
    tail.extend(zeros(1));
    tail
}

/// The table of each directory entry with grains, by that entry's number.
fn tables(start: &Image, kept: &Kept) -> BTreeMap<u64, Vec<u8>> {
    let header = &start.header;
    let mut tables = BTreeMap::new();
    for (grain, at) in &kept.grains {
        let table = tables
            .entry(grain / header.entries_per_table())
            .or_insert_with(|| zeros(header.table_sectors()));
        put32(table, grain % header.entries_per_table() * 4, *at);
    }
    tables
}

/// A marker sector: its first u64, size 0 and its type.
fn put_marker(tail: &mut Vec<u8>, kind: u64, first: u64) {
    let mut marker = zeros(1);
    put64(&mut marker, 0, first);
    put32(&mut marker, 12, kind);
    tail.extend(marker);
}

fn zeros(sectors: u64) -> Vec<u8> {
    vec![0; (sectors * SECTOR) as usize]
}
