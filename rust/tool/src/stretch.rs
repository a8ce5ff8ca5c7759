//! The part of a disk that is asked for.

use crate::failure::Failure;
use crate::given::Given;
use std::ops::Range;

/// Sectors from a first one on: so many, or all.
#[derive(Clone, Copy)]
pub struct Stretch {
    pub first: u64,
    pub count: Option<u64>,
}

impl Stretch {
    /// The last sector that is asked for: of a disk of so many, where no count says it.
    pub fn last(self, capacity: u64) -> u64 {
        match self.count {
            Some(count) => self.first.saturating_add(count - 1),
            None => self.first.max(capacity - 1),
        }
    }

    /// Its sectors on a disk of so many, or the library's refusal where the disk ends before.
    pub fn on(self, given: &mut Given, capacity: u64) -> Result<Range<u64>, Failure> {
        let last = self.last(capacity);
        if last >= capacity {
            given.holds(last)?;
        }
        Ok(self.first..last + 1)
    }
}
