//! A COWD image, which the library takes in moves alone. The tool reads its entries by itself: to know what to copy into own
//! bytes, how many grains it stores, and where the grains of a result stand. What is refused and what is written, the moves say.

use crate::entries::entry;
use crate::room::up;
use anhkhovet::{Area, Disk, Group, Refusal, SECTOR};
use std::ops::Range;

const MAGIC: &[u8] = b"COWD";

/// Sectors of the header and of a table, and entries of a table.
const HEADER: u64 = 4;
const TABLE: u64 = 32;
const ENTRIES: u64 = 4096;

/// By own bytes, whose numbers may be any until a move has judged them.
pub struct Cowd<'a> {
    own: &'a [u8],
    pub disk: Disk,
    directory: u64,
}

/// The areas of an image that is to be moved, of either kind. Those of COWD need not lie in the file: a move refuses them then.
pub fn frame(own: &[u8]) -> Result<Vec<Area>, Refusal> {
    match Cowd::of(own) {
        Some(old) => Ok(old.areas()),
        None => anhkhovet::frame(own),
    }
}

impl<'a> Cowd<'a> {
    /// Nothing of another kind, or where the file ends before these numbers.
    pub fn of(own: &'a [u8]) -> Option<Cowd<'a>> {
        let number = |number| entry(own, 0, number);
        Some(Cowd {
            own,
            disk: Disk {
                capacity: number(3)?,
                grain_size: number(4)?,
            },
            directory: number(5)?,
        })
        .filter(|_| own.starts_with(MAGIC))
    }

    /// Entries of the directory that are in use.
    fn used(&self) -> u64 {
        up(self.disk.capacity, ENTRIES * self.disk.grain_size.max(1))
    }

    /// The sector of the table that an entry of the directory names.
    fn table(&self, number: u64) -> Option<u64> {
        entry(self.own, self.directory, number).filter(|sector| *sector > 0)
    }

    /// Header, the directory's sectors in use, and each table that it names.
    fn areas(&self) -> Vec<Area> {
        let area = |group, first, sectors| Area {
            group,
            first,
            sectors,
        };
        let directory = up(4 * self.used(), SECTOR);
        let tables = (0..self.used()).filter_map(|number| self.table(number));
        [
            area(Group::Header, 0, HEADER),
            area(Group::Directory, self.directory, directory),
        ]
        .into_iter()
        .chain(tables.map(|first| area(Group::PrimaryTable, first, TABLE)))
        .collect()
    }

    /// The file's sector at which a grain is stored; nothing where it is absent.
    fn grain(&self, grain: u64) -> Option<u64> {
        let table = self.table(grain / ENTRIES)?;
        entry(self.own, table, grain % ENTRIES).filter(|sector| *sector > 0)
    }

    /// How many grains are stored.
    pub fn stored(&self) -> u64 {
        let grains = 0..up(self.disk.capacity, self.disk.grain_size.max(1));
        grains.filter(|grain| self.grain(*grain).is_some()).count() as u64
    }

    /// Where the `sectors` from `first` on are in the file, all of them of one grain; nothing where it is absent.
    pub fn place(&self, first: u64, sectors: u64) -> Option<Range<u64>> {
        let size = self.disk.grain_size;
        let sector = self.grain(first / size)? + first % size;
        Some(SECTOR * sector..SECTOR * (sector + sectors))
    }
}

#[cfg(test)]
mod tests {
    use super::*;

    /// A header with these numbers, and a directory at sector 4 that names tables at sectors 6 and 1 << 20, and itself.
    fn header(length: usize, numbers: [u32; 3]) -> Vec<u8> {
        let mut own = vec![0; length.max(4096)];
        own[..4].copy_from_slice(MAGIC);
        for (at, number) in [12, 16, 20].into_iter().zip(numbers) {
            own[at..at + 4].copy_from_slice(&number.to_le_bytes());
        }
        for (at, number) in [2048, 2056, 2060].into_iter().zip([6u32, 1 << 20, 4]) {
            own[at..at + 4].copy_from_slice(&number.to_le_bytes());
        }
        own.truncate(length);
        own
    }

    #[test]
    fn what_decides_is_listed() {
        let own = header(1 << 16, [4 * 4096 * 8, 8, 4]);
        let areas = frame(&own).expect("COWD");
        let listed = areas.iter().map(|area| (area.first, area.sectors));
        let wanted = [(0, 4), (4, 1), (6, 32), (1 << 20, 32), (4, 32)];
        assert_eq!(listed.collect::<Vec<_>>(), wanted);
        // With one sector more another entry is in use.
        let used = |capacity| Cowd::of(&header(1 << 16, [capacity, 8, 4])).map(|old| old.used());
        assert_eq!(used(4 * 4096 * 8 + 1), Some(5));
        assert_eq!(used(1), Some(1));
    }

    /// Of numbers that nobody has judged: no fault, and no more areas than entries in the file.
    #[test]
    fn any_numbers() {
        let edges = [0, 1, 2, 4, 8, 127, 2048, 4096, 1 << 20, 1 << 31, u32::MAX];
        for length in [24, 2047, 2048, 2052, 2063, 4096, 1 << 16] {
            for [capacity, grain_size, directory] in edges
                .into_iter()
                .flat_map(|one| edges.map(|two| edges.map(|three| [one, two, three])))
                .flatten()
            {
                let own = header(length, [capacity, grain_size, directory]);
                let areas = frame(&own).expect("COWD").len();
                assert!(
                    areas <= 2 + length / 4,
                    "{capacity} {grain_size} {directory}"
                );
            }
        }
        // Too short for the numbers, it is judged by the library alone.
        let short = frame(&header(23, [0; 3])).map_err(|why| why.number);
        assert_eq!(short, Err(1));
    }
}
