//! A start of a stream in own bytes, of which what decides is copied: the header, and the marker of each block. The tool goes from
//! marker to marker by itself only to know what to copy; which blocks are kept, the library says.

use crate::failure::{Failure, Refusal};
use crate::layer::Layer;
use crate::own::Own;
use anhkhovet::{Closed, Header, SECTOR};
use std::path::Path;
use std::{io, iter};

/// The refusal of what is no start that can be closed.
const NOT_CLOSABLE: u64 = 41;

/// Bytes of a marker: first number, size, type.
const MARKER: usize = 16;

/// Longer starts are refused, whatever their markers say.
const MOST_SECTORS: u64 = 1 << 31;

/// The most tables and sectors of the directory that a disk has, and the sectors of a tail beside them.
const MOST_TABLES: u64 = 1 << 19;
const MOST_DIRECTORY: u64 = 1 << 12;
const OTHERS: u64 = 5;

pub struct Start {
    pub file: Layer,
    /// The file's bytes, zero where they decide nothing, and behind them room for the tail.
    own: Own,
    /// The sectors of the markers, in order.
    markers: Vec<u64>,
}

/// What is kept of a start, and the tail behind it.
pub struct Kept {
    pub closed: Closed,
    pub header: Header,
    /// The virtual sectors up to the end of the last kept grain.
    pub covered: u64,
    start: Start,
}

/// A number of own bytes; past their end it is 0.
pub fn number(own: &[u8], at: u64, length: usize) -> u64 {
    let at = usize::try_from(at).unwrap_or(usize::MAX);
    let bytes = own.get(at..at.saturating_add(length)).unwrap_or(&[]);
    let add = |value: u64, byte: &u8| value << 8 | u64::from(*byte);
    bytes.iter().rev().fold(0, add)
}

/// Sectors of the directory, by capacity and grain size: any number where these are refused.
fn directory_sectors(own: &[u8]) -> u64 {
    let (capacity, grain_size) = (number(own, 12, 8), number(own, 20, 8));
    let table = grain_size.saturating_mul(512).max(1);
    let entries = capacity.saturating_add(table - 1) / table;
    (entries / 128).saturating_add(u64::from(entries % 128 != 0))
}

/// The sector after the block of a marker; nothing where no block follows.
fn next(own: &[u8], at: u64) -> Option<u64> {
    let place = at * SECTOR;
    let sectors = match (number(own, place + 8, 4), number(own, place + 12, 4)) {
        (0, 1) => 5,
        (0, 2) => 1 + directory_sectors(own),
        (0, _) => return None,
        (size, _) => (12 + size + SECTOR - 1) / SECTOR,
    };
    at.checked_add(sectors)
}

impl Start {
    pub fn open(path: &Path) -> Result<Start, Failure> {
        let file = Layer::open(path)?;
        let tables = MOST_TABLES.min(file.length() / SECTOR);
        let room = SECTOR * (5 * tables + MOST_DIRECTORY + OTHERS);
        let own = usize::try_from(file.length() + room)
            .map_err(|_| io::ErrorKind::OutOfMemory.into())
            .and_then(Own::new)
            .map_err(Failure::system(path, "is too long to be mapped"))?;
        let mut start = Start {
            file,
            own,
            markers: Vec::new(),
        };
        start.copy()?;
        Ok(start)
    }

    fn length(&self) -> usize {
        self.file.length() as usize
    }

    /// Copies what decides.
    fn copy(&mut self) -> Result<(), Failure> {
        let length = self.length();
        let own = &mut self.own.bytes_mut()[..length];
        self.file.read(0, &mut own[..length.min(SECTOR as usize)])?;
        let sectors = length as u64 / SECTOR;
        let mut at = Some(number(own, 64, 8)).filter(|_| sectors <= MOST_SECTORS);
        while let Some(marker) = at.filter(|marker| *marker > 0 && *marker < sectors) {
            let place = (marker * SECTOR) as usize;
            self.file
                .read(marker * SECTOR, &mut own[place..place + MARKER])?;
            self.markers.push(marker);
            at = next(own, marker);
        }
        Ok(())
    }

    /// What is kept, or why nothing is.
    pub fn close(mut self) -> Result<Kept, Failure> {
        let length = self.length();
        let (image, room) = self.own.bytes_mut().split_at_mut(length);
        let closed = match anhkhovet::close(image, room) {
            Ok(closed) => closed,
            Err(why) => {
                let mut refusal = Refusal::new(why, Some(&self.file.path));
                if why.number == NOT_CLOSABLE {
                    refusal.detail = ground(image);
                }
                self.file.same()?;
                return Err(Failure::Refused(refusal));
            }
        };
        let end = (closed.sectors * SECTOR) as usize;
        let tail = length..length + closed.length as usize;
        self.own.bytes_mut().copy_within(tail, end);
        let image = &self.own.bytes()[..end + closed.length as usize];
        let header = anhkhovet::header(image).map_err(Failure::refused(&self.file.path))?;
        // Of the kept blocks the last one is a grain.
        self.markers.retain(|marker| *marker < closed.sectors);
        let covered = self.markers.last().map_or(0, |marker| {
            let first = number(image, marker * SECTOR, 8);
            header.disk.capacity.min(first + header.disk.grain_size)
        });
        Ok(Kept {
            closed,
            header,
            covered,
            start: self,
        })
    }
}

impl Kept {
    pub fn file(&self) -> &Layer {
        &self.start.file
    }

    /// Bytes of what is kept.
    pub fn end(&self) -> u64 {
        self.closed.sectors * SECTOR
    }

    pub fn tail(&self) -> &[u8] {
        let end = self.end() as usize;
        &self.start.own.bytes()[end..end + self.closed.length as usize]
    }

    /// Places and bytes of what decides in the kept part: the header, and each marker.
    pub fn deciding(&self) -> impl Iterator<Item = (u64, &[u8])> {
        let own = &self.start.own.bytes()[..self.end() as usize];
        let markers = self.start.markers.iter().map(move |marker| {
            let at = marker * SECTOR;
            (at, &own[at as usize..][..MARKER])
        });
        iter::once((0, &own[..SECTOR as usize])).chain(markers)
    }
}

/// Why a start whose header is not refused cannot be closed.
fn ground(own: &[u8]) -> String {
    let [first, sectors, redundant, directory, overhead] =
        [28, 36, 48, 56, 64].map(|at| number(own, at, 8));
    let all = own.len() as u64 / SECTOR;
    if directory != u64::MAX {
        return format!("its header has the directory at sector {directory}, not at the end");
    }
    if redundant != 0 {
        return "it has a redundant directory".to_string();
    }
    if all > MOST_SECTORS {
        return format!("it has {all} sectors");
    }
    if overhead < 2 {
        return format!("its grains would begin at sector {overhead}");
    }
    if overhead > all {
        return format!("it ends before sector {overhead}, where its grains begin: none is there");
    }
    format!(
        "its descriptor has {sectors} sectors from {first} on, and its grains begin at {overhead}"
    )
}
