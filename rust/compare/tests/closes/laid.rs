//! The tail of a closing with a mistake.

use super::walk::{directory_sectors, number, Kept};
use super::{Mistake, Mistake::*};
use std::collections::BTreeMap;

impl Mistake {
    pub fn laid(self, image: &[u8], kept: &Kept) -> Vec<u8> {
        let mut tail = Vec::new();
        let entries = directory_sectors(image) * 128;
        let mut directory = vec![0; entries as usize * 4];
        for (entry, table) in self.tables(image, kept) {
            let marker = self.put_marker(&mut tail, 1, 4);
            let at = match self {
                TableSectorOfMarker => kept.sectors + marker,
                _ => kept.sectors + tail.len() as u64 / 512,
            };
            put(&mut directory, entry as usize * 4, at);
            tail.extend(table);
        }
        let first = match self {
            DirectoryMarkerOfEntries => {
                (number(image, 12, 8) - 1) / (512 * number(image, 20, 8)) + 1
            }
            _ => directory_sectors(image),
        };
        let marker = self.put_marker(&mut tail, 2, first);
        let at = match self {
            DirectoryAtMarker => kept.sectors + marker,
            _ => kept.sectors + tail.len() as u64 / 512,
        };
        if self == DirectoryShort {
            directory.truncate(512);
        }
        tail.extend(directory);
        self.put_marker(&mut tail, 3, u64::from(self == FooterMarkerOf1));
        tail.extend(self.footer(image, at));
        if self != LastSectorLeftOut {
            tail.extend([0; 512]);
        }
        if let (TailHeld, Some(byte)) = (self, tail.get_mut(100)) {
            *byte = 1;
        }
        tail
    }

    fn footer(self, image: &[u8], directory: u64) -> Vec<u8> {
        let mut footer = match self {
            NoFooter => return Vec::new(),
            FooterOfZeros => vec![0; 512],
            _ => image[..512].to_vec(),
        };
        if self == FooterClean {
            footer[72] = 0;
        }
        if self != OldDirectorySector {
            footer[56..64].copy_from_slice(&directory.to_le_bytes());
        }
        footer
    }

    /// Where the marker stands in the tail, in sectors.
    fn put_marker(self, tail: &mut Vec<u8>, kind: u64, first: u64) -> u64 {
        let at = tail.len();
        let left = match kind {
            1 => self == TableNotMarked,
            3 => self == FooterMarkerLeft,
            _ => false,
        };
        if !left {
            tail.resize(at + 512, 0);
            let empty = match kind {
                1 => self == TableMarkerEmpty,
                2 => self == DirectoryMarkerEmpty,
                _ => false,
            };
            put(tail, at, if empty { 0 } else { first });
            put(tail, at + 12, kind);
        }
        at as u64 / 512
    }

    /// The tables that the mistake writes, by directory entry.
    fn tables(self, image: &[u8], kept: &Kept) -> BTreeMap<u64, Vec<u8>> {
        let mut tables = BTreeMap::new();
        let new = || vec![0; 2048];
        if self == TablesOfEmptyEntries {
            let last = kept.grains.last().map_or(0, |(grain, _)| grain / 512);
            tables.extend((0..last).map(|entry| (entry, new())));
        }
        for (index, (grain, at)) in kept.grains.iter().enumerate() {
            let entry = match self {
                OneTableOnly => 0,
                _ => grain / 512,
            };
            let table = tables.entry(entry).or_insert_with(new);
            let at = match self {
                GrainAfterMarker => at + 1,
                TableInPlaceOfGrain => at - number(image, 64, 8),
                _ => *at,
            };
            let place = match self {
                EntryOfWholeDisk => grain % 4096,
                _ => grain % 512,
            };
            if self != FirstGrainOnly || index == 0 {
                put(table, place as usize * 4, at);
            }
        }
        tables
    }
}

fn put(bytes: &mut [u8], at: usize, number: u64) {
    if let Some(place) = bytes.get_mut(at..at + 4) {
        place.copy_from_slice(&number.to_le_bytes()[..4]);
    }
}
