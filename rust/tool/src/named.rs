//! Which numbers below a total were named: a bit each, in parts that are there once one of their numbers is.

/// Words of a part: a page of memory.
const WORDS: usize = 512;
const PART: u64 = 64 * WORDS as u64;

pub struct Named {
    parts: Vec<Option<Box<[u64; WORDS]>>>,
    pub count: u64,
}

impl Named {
    pub fn below(total: u64) -> Named {
        Named {
            parts: (0..=total / PART).map(|_| None).collect(),
            count: 0,
        }
    }

    /// Whether the number, which is below the total, was not named before.
    pub fn mark(&mut self, number: u64) -> bool {
        let part = &mut self.parts[(number / PART) as usize];
        let words = part.get_or_insert_with(|| Box::new([0; WORDS]));
        let word = &mut words[(number % PART / 64) as usize];
        let bit = 1 << (number % 64);
        let new = *word & bit == 0;
        *word |= bit;
        self.count += u64::from(new);
        new
    }
}
