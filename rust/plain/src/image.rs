//! Entries and grains of an image whose header is known.

use crate::answers::{outside, Outside, Refusal};
use crate::header::{judge, judge_either, Header};
use crate::numbers::{number, past, sector, up, whole_sectors, SECTOR};
use std::ops::Range;

/// What a directory or table entry says.
#[derive(Clone, Copy, Debug, PartialEq, Eq)]
pub enum Entry {
    Absent,
    Zero,
    /// The sector of a table or of a grain.
    Sector(u64),
}

/// A table of each directory, by its sector, that one directory entry names, and the grains that it stands for.
pub struct Pair {
    pub grains: Range<u64>,
    pub primary: u64,
    pub redundant: u64,
}

#[derive(Clone, Copy)]
pub struct Image<'a> {
    pub bytes: &'a [u8],
    pub header: Header,
}

impl<'a> Image<'a> {
    /// A KDMV image, whose header passed its rules.
    pub fn judged(bytes: &'a [u8]) -> Result<Image<'a>, Refusal> {
        let header = judge(bytes)?;
        Ok(Image { bytes, header })
    }

    /// An image of either kind, whose header passed its rules.
    pub fn judged_either(bytes: &'a [u8]) -> Result<Image<'a>, Refusal> {
        let header = judge_either(bytes)?;
        Ok(Image { bytes, header })
    }

    /// F.
    pub fn sectors(&self) -> u64 {
        whole_sectors(self.bytes)
    }

    /// Document 01's entry table, as request A2 amends it: the header says what 1 is.
    fn meaning(&self, entry: u64) -> Entry {
        match entry {
            0 => Entry::Absent,
            1 if self.header.one_is_zero => Entry::Zero,
            at => Entry::Sector(at),
        }
    }

    /// Entry `index` of the directory or table that starts at sector `at`, which was found to lie below F.
    pub fn entry(&self, at: u64, index: u64) -> Entry {
        self.meaning(number(self.bytes, entry_at(at, index), 4))
    }

    /// The entries in use of the directory at sector `at`.
    pub fn directory(&self, at: u64) -> Vec<Entry> {
        (0..self.header.directory_entries())
            .map(|index| self.entry(at, index))
            .collect()
    }

    /// The grains that directory entry `index` stands for; past the last grain there are none.
    pub fn grains_of(&self, index: u64) -> Range<u64> {
        let per_table = self.header.entries_per_table();
        index * per_table..((index + 1) * per_table).min(self.header.grains())
    }

    /// The byte where the entry of grain `grain` starts in the table at sector `table`.
    pub fn grain_entry_at(&self, table: u64, grain: u64) -> u64 {
        entry_at(table, grain % self.header.entries_per_table())
    }

    /// That entry as a number.
    pub fn grain_number(&self, table: u64, grain: u64) -> u64 {
        number(self.bytes, self.grain_entry_at(table, grain), 4)
    }

    /// That entry's meaning.
    pub fn grain_entry(&self, table: u64, grain: u64) -> Entry {
        self.meaning(self.grain_number(table, grain))
    }

    /// The tables that both directories name, by entry. Nothing where there is no redundant directory, or where it has not
    /// absent, zero and tables where the primary has. Needs 8 passed.
    pub fn pairs(&self) -> Option<Vec<Pair>> {
        if self.header.redundant == 0 {
            return None;
        }
        let mut pairs = Vec::new();
        for index in 0..self.header.directory_entries() {
            let primary = self.entry(self.header.directory, index);
            let redundant = self.entry(self.header.redundant, index);
            match (primary, redundant) {
                (Entry::Sector(primary), Entry::Sector(redundant)) => pairs.push(Pair {
                    grains: self.grains_of(index),
                    primary,
                    redundant,
                }),
                (one, other) if one == other => {}
                _ => return None,
            }
        }
        Some(pairs)
    }

    /// A marker's two numbers: first virtual sector and size. Its sector lies below F.
    pub fn marker(&self, at: u64) -> (u64, u64) {
        let bytes = sector(self.bytes, at);
        (number(bytes, 0, 8), number(bytes, 8, 4))
    }

    /// The sectors of the grain at `at`; a packed one's marker lies below F.
    pub fn grain_sectors(&self, at: u64) -> u64 {
        if self.header.packed() {
            up(12 + self.marker(at).1, SECTOR)
        } else {
            self.header.grain_size
        }
    }

    /// Refusal 9 for one grain.
    pub fn judge_past(&self, grain: u64, at: u64) -> Result<(), Refusal> {
        let marker_past = self.header.packed() && at >= self.sectors();
        if marker_past || past(at, self.grain_sectors(at), self.sectors()) {
            return Err(Refusal {
                number: 9,
                place: grain,
            });
        }
        Ok(())
    }

    /// Refusal 10 for one grain that passed 9.
    pub fn judge_marker(&self, grain: u64, at: u64) -> Result<(), Refusal> {
        if self.header.packed() {
            let (first, size) = self.marker(at);
            if size == 0 || first != grain * self.header.grain_size {
                return Err(Refusal {
                    number: 10,
                    place: grain,
                });
            }
        }
        Ok(())
    }

    /// The directory's part of 8, which check and lookup share: sector 0, or past F.
    pub fn judge_directory(&self) -> Result<(), Refusal> {
        let at = self.header.directory;
        if at == 0 || past(at, self.header.directory_sectors(), self.sectors()) {
            return Err(outside(Outside::Directory));
        }
        Ok(())
    }

    /// A table's part of 8: the one at sector `table`, of the directory that `side` says, runs past F.
    pub fn judge_table(&self, table: u64, side: Outside) -> Result<(), Refusal> {
        if past(table, self.header.table_sectors(), self.sectors()) {
            return Err(outside(side));
        }
        Ok(())
    }
}

/// The byte where entry `index` starts in the directory or table at sector `at`.
pub fn entry_at(at: u64, index: u64) -> u64 {
    at * SECTOR + index * 4
}
