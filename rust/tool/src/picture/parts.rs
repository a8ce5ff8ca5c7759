//! A list of parts that stays short: neighbours are put together where there are more than a bound, and nothing of them is
//! lost.
//!
//! Neighbours become one where they are no longer together than a cell, and the cell grows until there are few enough parts.
//! What a file has once, its header and the like, is put together last, so that it is seen as long as possible.

use super::kind::Kind;
use super::part::Part;

/// What may be put together.
#[derive(Clone, Copy, PartialEq, Eq)]
enum Joined {
    /// Grains, and what nothing holds.
    Grains,
    /// Tables and what is wrong too.
    Tables,
    All,
}

/// A cell is at most so many times as long as the bound asks for, before more kinds are put together.
const COARSEST: u64 = 8;

pub struct Parts {
    list: Vec<Part>,
    most: usize,
    /// Sectors of the file or the disk.
    sectors: u64,
    cell: u64,
    joined: Joined,
}

impl Parts {
    /// A strip of so many sectors with at most so many parts, one at least.
    pub fn new(sectors: u64, most: usize) -> Parts {
        Parts {
            list: Vec::new(),
            most: most.max(1),
            sectors,
            cell: 1,
            joined: Joined::Grains,
        }
    }

    /// So many sectors are going to be put together anyway.
    pub fn cell(&self) -> u64 {
        self.cell
    }

    /// Adds the part that begins where the last one ends.
    pub fn push(&mut self, part: Part) {
        self.add(part);
        while self.list.len() > self.most {
            self.widen();
            for part in std::mem::take(&mut self.list) {
                self.add(part);
            }
        }
    }

    pub fn done(self) -> Vec<Part> {
        self.list
    }

    fn add(&mut self, part: Part) {
        let (cell, joined) = (self.cell, self.joined);
        if let Some(last) = self.list.last_mut() {
            if last.goes_on(&part) {
                return last.join(&part);
            }
            if part.end() - last.first <= cell && alike(last, &part, joined) {
                last.join(&part);
                last.together = true;
                return;
            }
        }
        self.list.push(part);
    }

    /// Larger cells or, where they are as large as is good, more kinds.
    fn widen(&mut self) {
        let coarsest = COARSEST * self.sectors / self.most as u64;
        let more = match self.joined {
            Joined::Grains => Joined::Tables,
            Joined::Tables | Joined::All => Joined::All,
        };
        if self.cell > coarsest && more != self.joined {
            self.joined = more;
            self.cell = 1;
        } else {
            self.cell += self.cell / 4 + 1;
        }
    }
}

/// Whether two parts may be put together.
fn alike(one: &Part, other: &Part, joined: Joined) -> bool {
    let often = |part: &Part| {
        part.kinds().all(|(kind, _)| match kind {
            Kind::Shared | Kind::Refused => joined != Joined::Grains,
            kind if kind.is_table() => joined != Joined::Grains,
            kind => !kind.is_frame(),
        })
    };
    let same = || {
        one.kinds()
            .map(|(kind, _)| kind)
            .eq(other.kinds().map(|(kind, _)| kind))
    };
    joined == Joined::All || often(one) && often(other) || same()
}
