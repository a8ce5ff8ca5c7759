//! What stands before the grains of a normal form (docs/COLLAPSE.md), and what a byte of it is for.

use crate::room::up;
use anhkhovet::{Disk, SECTOR};
use std::ops::Range;

/// The header's fields: where each ends, and what it is.
pub const FIELDS: [(u64, &str); 15] = [
    (4, "magic"),
    (8, "version"),
    (12, "flags"),
    (20, "capacity"),
    (28, "grain size"),
    (36, "descriptor's first sector"),
    (44, "descriptor's sectors"),
    (48, "entries per table"),
    (56, "redundant directory's sector"),
    (64, "directory's sector"),
    (72, "overhead"),
    (73, "dirty byte"),
    (77, "newline bytes"),
    (79, "compression"),
    (SECTOR, "padding"),
];

/// Its parts behind the header: where each ends, in bytes.
pub struct Front {
    /// The directory's entries in use, and its last sector.
    entries: u64,
    directory: u64,
    /// The entries of grains, and the last table.
    grains: u64,
    tables: u64,
    /// The zeros before the first grain.
    gap: u64,
}

impl Front {
    pub fn of(disk: Disk) -> Front {
        let grains = up(disk.capacity, disk.grain_size);
        let tables = up(grains, 512);
        let first = 1 + up(tables * 4, SECTOR);
        let end = first + 4 * tables;
        Front {
            entries: SECTOR + 4 * tables,
            directory: SECTOR * first,
            grains: SECTOR * first + 4 * grains,
            tables: SECTOR * end,
            gap: SECTOR * up(end, disk.grain_size) * disk.grain_size,
        }
    }

    /// The bytes between tables and grains.
    pub fn gap(&self) -> Range<u64> {
        self.tables..self.gap
    }

    /// What stands at a byte where a file of this length and its normal form differ first: grains are the file's own.
    pub fn part(&self, at: u64, length: u64) -> String {
        let entry = |from: u64| (at - from) / 4;
        if at < SECTOR {
            let field = FIELDS.iter().find(|(end, _)| at < *end);
            return format!("the header's {}", field.map_or("", |(_, name)| name));
        }
        if at < self.entries {
            return format!("entry {} of the directory", entry(SECTOR));
        }
        if at < self.directory {
            return "a part of the directory that no entry uses".to_string();
        }
        if at < self.grains {
            return format!("the table entry of grain {}", entry(self.directory));
        }
        if at < self.tables {
            return "a table entry that no grain uses".to_string();
        }
        if at == length {
            return "the end of the file, whose normal form goes on".to_string();
        }
        if at < self.gap {
            return "the gap between tables and grains, which holds zeros".to_string();
        }
        let more = length - at;
        let bytes = if more == 1 { "byte" } else { "bytes" };
        format!("the end of the normal form, and the file has {more} {bytes} more")
    }
}

#[cfg(test)]
mod tests {
    use super::*;

    /// Of 513 grains: two entries of the directory, two tables, and a gap from sector 10 on.
    #[test]
    fn parts_of_a_front() {
        let front = Front::of(Disk {
            capacity: 513 * 128,
            grain_size: 128,
        });
        assert_eq!(front.gap(), 10 * 512..128 * 512);
        let parts = [
            (4, "the header's version"),
            (63, "the header's directory's sector"),
            (64, "the header's overhead"),
            (71, "the header's overhead"),
            (72, "the header's dirty byte"),
            (511, "the header's padding"),
            (512, "entry 0 of the directory"),
            (519, "entry 1 of the directory"),
            (520, "a part of the directory that no entry uses"),
            (1024, "the table entry of grain 0"),
            (1024 + 4 * 513 - 1, "the table entry of grain 512"),
            (1024 + 4 * 513, "a table entry that no grain uses"),
            (10 * 512 - 1, "a table entry that no grain uses"),
            (
                10 * 512,
                "the gap between tables and grains, which holds zeros",
            ),
            (
                128 * 512 - 1,
                "the gap between tables and grains, which holds zeros",
            ),
            (
                128 * 512,
                "the end of the normal form, and the file has 2 bytes more",
            ),
            (
                128 * 512 + 1,
                "the end of the normal form, and the file has 1 byte more",
            ),
        ];
        for (at, part) in parts {
            assert_eq!(front.part(at, 128 * 512 + 2), part, "{at}");
        }
        let cut = front.part(100 * 512, 100 * 512);
        assert_eq!(cut, "the end of the file, whose normal form goes on");
    }
}
