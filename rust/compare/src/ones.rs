//! Request A2 in the table: what an entry of 1 is in a KDMV image, and what it led to.

use crate::run::Run;
use crate::tally::Call;
use plain::{Located, Verdict, PACKED, STORED};

/// Whether an entry of 1 means zeros, by a KDMV header that was not refused 3 or 5.
pub fn one_is_zero(image: &[u8]) -> bool {
    number(image, 4, 4) > 1 && image[8] & 0x4 != 0
}

/// Whether a header that was refused 5 has no other fault of that number than flag 0x4 in version 1.
pub fn flag_alone(image: &[u8]) -> bool {
    let mut header = image[..512].to_vec();
    header[8] &= !0x4;
    let flagged = header[8] != image[8];
    flagged && number(image, 4, 4) == 1 && plain::header(&header).number != 5
}

/// Whether an accepted image is a KDMV one with a grain at sector 1.
pub fn grain_at_1(image: &[u8]) -> bool {
    let kdmv = image.starts_with(b"KDMV") && !one_is_zero(image);
    kdmv && has_grain_at_1(image, &directories(image)[0])
}

impl Run<'_> {
    /// Rows of a KDMV image that passed 8, by what its entries of 1 led to.
    pub(crate) fn count_ones(&mut self, call: Call, verdict: Verdict, image: &[u8]) {
        if !image.starts_with(b"KDMV") || (1..=8).contains(&verdict.number) {
            return;
        }
        let zeros = one_is_zero(image);
        let [primary, redundant] = directories(image);
        let table = !zeros && primary.contains(&1);
        let copy = !zeros && redundant.contains(&1);
        let grain = !zeros && has_grain_at_1(image, &primary);
        let against = |other: fn(u64) -> bool| {
            let mut pairs = primary.iter().zip(&redundant);
            pairs.any(|(a, b)| (*a == 1 && other(*b)) || (*b == 1 && other(*a)))
        };
        let rows = match verdict.number {
            0 => vec![
                ("accepted, table at 1", table),
                ("accepted, copy at 1", copy),
                ("accepted, grain at 1", grain),
            ],
            9 => vec![("9, grain at 1", entry(image, &primary, verdict.place) == 1)],
            11 => vec![
                ("11, zeros and absent", zeros && against(|other| other == 0)),
                ("11, zeros and a table", zeros && against(|other| other > 1)),
                ("11, 1 and absent", !zeros && against(|other| other == 0)),
                ("11, 1 and a table", !zeros && against(|other| other > 1)),
            ],
            12 => vec![
                ("12, 1 and 2", !zeros && against(|other| other == 2)),
                ("12, entry 1", table || copy || grain),
            ],
            _ => vec![],
        };
        for (row, holds) in rows {
            if holds {
                self.tally.answered(call, row);
            }
        }
    }

    /// Rows of a sector that was served: by a dirty image, or from a KDMV image's grain at sector 1.
    pub(crate) fn count_source(&mut self, call: Call, located: Located, image: &[u8], sector: u64) {
        if located.number != 0 {
            return;
        }
        self.count_served(call, image);
        if !image.starts_with(b"KDMV") {
            return;
        }
        let inside = sector % plain::header(image).grain_size;
        match located.kind {
            STORED if located.sector == 1 + inside => self.tally.answered(call, "stored at 1"),
            PACKED if located.sector == 1 => self.tally.answered(call, "packed at 1"),
            _ => {}
        }
    }
}

/// The entries in use of both directories; none of a redundant one where there is none. The image passed 8.
pub fn directories(image: &[u8]) -> [Vec<u64>; 2] {
    let head = plain::header(image);
    let last = (head.capacity - 1) / (512 * head.grain_size);
    let footer = (image.len() as u64 / 512).saturating_sub(2) * 512;
    let primary = match number(image, 56, 8) {
        u64::MAX => number(image, footer + 56, 8),
        at => at,
    };
    let entries = |at| (0..=last).map(move |index| number(image, at * 512 + index * 4, 4));
    match number(image, 48, 8) {
        0 => [entries(primary).collect(), Vec::new()],
        redundant => [primary, redundant].map(|at| entries(at).collect()),
    }
}

/// A grain's entry in its table; 0 where there is none.
fn entry(image: &[u8], directory: &[u64], grain: u64) -> u64 {
    match directory[(grain / 512) as usize] {
        0 => 0,
        table => number(image, table * 512 + grain % 512 * 4, 4),
    }
}

fn has_grain_at_1(image: &[u8], directory: &[u64]) -> bool {
    let head = plain::header(image);
    let last = (head.capacity - 1) / head.grain_size;
    (0..).zip(directory).any(|(index, table)| {
        let mut grains = 512 * index..=last.min(512 * index + 511);
        *table != 0 && grains.any(|grain| entry(image, directory, grain) == 1)
    })
}

pub fn number(image: &[u8], at: u64, size: usize) -> u64 {
    let bytes = &image[at as usize..at as usize + size];
    let add = |value: u64, byte: &u8| value << 8 | u64::from(*byte);
    bytes.iter().rev().fold(0, add)
}
