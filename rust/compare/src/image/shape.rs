//! The shape of a sound image: its header's numbers and what each entry is.

use super::edges::dirty;
use crate::rng::Rng;
use std::collections::BTreeMap;

/// What a grain's entry says.
#[derive(Clone, Copy, Debug, PartialEq, Eq)]
pub enum Cell {
    Zero,
    Stored,
    /// A compressed grain and its size in bytes.
    Packed(u64),
}

#[derive(Clone, Debug)]
pub struct Shape {
    pub cowd: bool,
    pub version: u64,
    pub flags: u64,
    pub capacity: u64,
    pub grain_size: u64,
    pub packed: bool,
    /// 0 mostly.
    pub dirty: u64,
    pub footer: bool,
    pub redundant: bool,
    /// Sectors of the descriptor area, 0 for none.
    pub descriptor: u64,
    /// Entries that the directory has room for.
    pub stored_entries: u64,
    /// The directory's entries that have a table, with the table's cells that are not absent.
    pub tables: BTreeMap<u64, BTreeMap<u64, Cell>>,
    /// Of the other entries, which are 1: none, all, or every second one. None where 1 is a sector.
    pub ones: u64,
}

/// What a case asks of a shape.
#[derive(Clone, Copy, Default)]
pub struct Plan {
    /// COWD, which the moves alone take, or KDMV.
    pub cowd: bool,
    pub packed: Option<bool>,
    /// Capacity and grain size.
    pub size: Option<(u64, u64)>,
    /// Whether the dirty number is 0 always.
    pub clean: bool,
    pub footer: bool,
    pub redundant: bool,
    /// At most this many sectors of stored grains.
    pub most_sectors: u64,
}

impl Shape {
    pub fn per_table(&self) -> u64 {
        if self.cowd {
            4096
        } else {
            512
        }
    }

    pub fn grains(&self) -> u64 {
        up(self.capacity, self.grain_size)
    }

    /// n.
    pub fn entries(&self) -> u64 {
        up(self.capacity, self.per_table() * self.grain_size)
    }

    /// Grains that directory entry `index` stands for.
    pub fn grains_of(&self, index: u64) -> u64 {
        self.per_table()
            .min(self.grains() - index * self.per_table())
    }

    /// Whether an entry of 1 means zeros; otherwise it is a sector.
    pub fn one_is_zero(&self) -> bool {
        !self.cowd && self.version > 1 && self.flags & 0x4 != 0
    }

    /// Whether directory entry `index`, which has no table, is 1 for zeros.
    pub fn is_one(&self, index: u64) -> bool {
        self.ones == 1 || (self.ones == 2 && index % 2 == 1)
    }

    pub fn choose(rng: &mut Rng, plan: Plan) -> Shape {
        let cowd = plan.cowd;
        let packed = !cowd && plan.packed.unwrap_or_else(|| rng.one_in(3));
        let (capacity, grain_size) = plan.size.unwrap_or_else(|| size(rng, cowd, packed));
        let markers = packed && (plan.footer || !rng.one_in(4));
        let redundant = !cowd && (plan.redundant || rng.one_in(2));
        let version = if cowd { 1 } else { rng.within(1, 3) };
        let open = rng.one_in(8) && !plan.clean;
        let mut shape = Shape {
            cowd,
            version,
            flags: 0,
            capacity,
            grain_size,
            packed,
            dirty: if open { dirty(rng, cowd) } else { 0 },
            footer: markers && (plan.footer || !rng.one_in(3)),
            redundant,
            descriptor: if !cowd && rng.one_in(2) {
                rng.within(1, 4)
            } else {
                0
            },
            stored_entries: 0,
            tables: BTreeMap::new(),
            ones: 0,
        };
        shape.flags = shape.choose_flags(rng, markers);
        if shape.one_is_zero() {
            shape.ones = rng.below(3);
        }
        let n = shape.entries();
        shape.stored_entries = n;
        if cowd && rng.one_in(2) {
            shape.stored_entries += rng.pick(&[1, 5, 127, 128, 129, 300]);
        }
        shape.choose_tables(rng, plan.most_sectors);
        shape
    }

    /// KDMV's flags in any combination that goes with the rest; COWD's are not judged.
    fn choose_flags(&self, rng: &mut Rng, markers: bool) -> u64 {
        if self.cowd {
            return rng.any() % (1 << 32);
        }
        let mut flags = 0;
        for (bit, set) in [
            (0x1, rng.one_in(2)),
            (0x2, self.redundant && rng.one_in(2)),
            (0x4, self.version > 1 && !rng.one_in(3)),
            (0x10000, self.packed),
            (0x20000, markers),
        ] {
            flags |= if set { bit } else { 0 };
        }
        flags
    }

    fn choose_tables(&mut self, rng: &mut Rng, most_sectors: u64) {
        let n = self.entries();
        let most = if self.cowd { 2 } else { 4 };
        let wanted = if rng.one_in(8) {
            0
        } else {
            rng.within(1, most.min(n))
        };
        for _ in 0..wanted {
            let index = match rng.below(4) {
                0 => 0,
                1 => n - 1,
                _ => rng.below(n),
            };
            self.tables.insert(index, BTreeMap::new());
        }
        let chosen: Vec<u64> = self.tables.keys().copied().collect();
        let mut left = most_sectors;
        for index in chosen {
            let cells = self.choose_cells(rng, index, &mut left);
            self.tables.insert(index, cells);
        }
    }

    fn choose_cells(&self, rng: &mut Rng, index: u64, left: &mut u64) -> BTreeMap<u64, Cell> {
        let grains = self.grains_of(index);
        let mut cells = BTreeMap::new();
        if self.one_is_zero() {
            let zeros = rng.pick(&[0, 0, 2, 30]);
            for _ in 0..zeros {
                cells.insert(rng.below(grains), Cell::Zero);
            }
        }
        for _ in 0..rng.within(0, 12) {
            let cell = match rng.below(5) {
                0 => 0,
                1 => grains - 1,
                2 => grains / 2,
                _ => rng.below(grains),
            };
            let (kind, sectors) = if self.packed {
                let size = payload(rng);
                (Cell::Packed(size), up(12 + size, 512))
            } else {
                (Cell::Stored, self.grain_size)
            };
            if sectors <= *left {
                *left -= sectors;
                cells.insert(cell, kind);
            }
        }
        cells
    }
}

/// Sizes of compressed grains, at the edges of a sector and otherwise.
fn payload(rng: &mut Rng) -> u64 {
    match rng.below(8) {
        0..=2 => rng.pick(&[1, 2, 499, 500, 501, 1011, 1012, 1013]),
        3..=5 => rng.within(1, 1500),
        6 => rng.within(1, 4000),
        // More than a small grain's own sectors.
        _ => rng.within(4000, 9000),
    }
}

/// A capacity and a grain size.
pub fn size(rng: &mut Rng, cowd: bool, packed: bool) -> (u64, u64) {
    let least = if cowd { 0 } else { 3 };
    let power = if rng.one_in(3) || packed {
        rng.within(least, 11)
    } else {
        rng.within(least, 5)
    };
    let grain_size = 1 << power;
    let table = grain_size * if cowd { 4096 } else { 512 };
    let capacity = match rng.below(12) {
        0 => 1,
        1..=3 => rng.within(1, grain_size * 6),
        4 | 5 => rng.within(1, table),
        6 => rng.pick(&[table - 1, table, table + 1]),
        7 | 8 => rng.within(table, table * 5),
        9 => rng.pick(&[2, 3, 5]) * table + rng.pick(&[0, 1, grain_size]),
        // A directory that just fills a sector, or not.
        10 => rng.pick(&[127, 128, 129]) * table - rng.pick(&[0, 1, grain_size]),
        _ => large(rng, table),
    };
    (capacity.min(1 << 31), grain_size)
}

/// Capacities up to 2^31, if the directory stays small; seldom one of 2 MiB.
fn large(rng: &mut Rng, table: u64) -> u64 {
    let capacity: u64 = rng.pick(&[1 << 31, (1 << 31) - 1, 1 << 30]);
    if capacity / table <= 8192 || rng.one_in(200) {
        capacity
    } else {
        rng.within(1, table * 300)
    }
}

/// a / b, rounded up.
pub fn up(a: u64, b: u64) -> u64 {
    a / b + u64::from(a % b != 0)
}
