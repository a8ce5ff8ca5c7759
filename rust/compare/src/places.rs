//! Request A8 in the table: which part of an image refusal 8 named, and which others lie outside the file too.

use crate::cowd::{head, is_cowd, PER_TABLE};
use crate::ones::{number, one_is_zero};
use crate::run::Run;
use crate::tally::Call;
use plain::{Located, Written};

/// By the place of refusal 8, from 1.
const PARTS: [&str; 5] = [
    "8, descriptor",
    "8, directory",
    "8, redundant",
    "8, primary table",
    "8, redundant table",
];

/// The same, where a part with a higher place lies outside too.
const OTHERS: [&str; 5] = [
    "8, 1 and others",
    "8, 2 and others",
    "8, 3 and 4",
    "8, 4 and 5",
    "unknown",
];

/// The row of a place of refusal 8.
pub fn part(place: u64) -> &'static str {
    let index = (place as usize).wrapping_sub(1);
    PARTS.get(index).unwrap_or(&"unknown")
}

/// What 8 judges of an image whose header is not refused.
struct Judged<'a> {
    image: &'a [u8],
    /// First sector and sectors.
    descriptor: [u64; 2],
    directory: u64,
    /// 0 for none.
    redundant: u64,
    /// Sectors of a directory, and its entries in use.
    sectors: u64,
    entries: u64,
    table_sectors: u64,
}

impl Judged<'_> {
    fn of(image: &[u8]) -> Judged<'_> {
        let (head, cowd) = (head(image), is_cowd(image));
        let per_table = if cowd { PER_TABLE } else { 512 };
        let entries = (head.capacity - 1) / (per_table * head.grain_size) + 1;
        let footer = (image.len() as u64 / 512).saturating_sub(2) * 512;
        let (directory, stored) = match number(image, 56, 8) {
            _ if cowd => (number(image, 20, 4), number(image, 24, 4)),
            u64::MAX => (number(image, footer + 56, 8), entries),
            at => (at, entries),
        };
        Judged {
            image,
            descriptor: [head.descriptor, head.descriptor_sectors],
            directory,
            redundant: if cowd { 0 } else { number(image, 48, 8) },
            sectors: (stored * 4 + 511) / 512,
            entries,
            table_sectors: per_table * 4 / 512,
        }
    }

    fn past(&self, first: u64, sectors: u64) -> bool {
        let f = self.image.len() as u64 / 512;
        first.checked_add(sectors).map_or(true, |end| end > f)
    }

    /// Whether a directory that lies in the file names a table that does not.
    fn table_past(&self, directory: u64) -> bool {
        if directory == 0 || self.past(directory, self.sectors) {
            return false;
        }
        let none = u64::from(!is_cowd(self.image) && one_is_zero(self.image));
        (0..self.entries).any(|index| {
            let table = number(self.image, directory * 512 + index * 4, 4);
            table > none && self.past(table, self.table_sectors)
        })
    }

    fn half_described(&self) -> bool {
        (self.descriptor[0] == 0) != (self.descriptor[1] == 0)
    }
}

/// Which of the five parts lie outside the file, in the order of their places. The header is not refused.
pub fn outside(image: &[u8]) -> [bool; 5] {
    let judged = Judged::of(image);
    let [first, sectors] = judged.descriptor;
    let directory = judged.directory;
    [
        judged.half_described() || judged.past(first, sectors),
        directory == 0 || judged.past(directory, judged.sectors),
        judged.redundant != 0 && judged.past(judged.redundant, judged.sectors),
        judged.table_past(directory),
        judged.table_past(judged.redundant),
    ]
}

/// Whether one of the descriptor's numbers is zero and one is not. The header is not refused.
pub fn half_described(image: &[u8]) -> bool {
    Judged::of(image).half_described()
}

impl Run<'_> {
    /// Rows of an image that a call which judges all of its parts refused 8.
    pub(crate) fn count_outside(&mut self, call: Call, place: u64, image: &[u8]) {
        let outside = outside(image);
        let lowest = outside.iter().position(|is| *is);
        if lowest.map(|index| index as u64 + 1) != Some(place) {
            self.tally.strange += 1;
            return;
        }
        let several = outside.iter().filter(|is| **is).count() > 1;
        if several {
            self.tally.answered(call, OTHERS[place as usize - 1]);
        }
        if place == 1 && half_described(image) {
            self.tally.answered(call, "8, half a descriptor");
        }
        self.count_at_0(call, place, image);
    }

    /// Rows of a refusal to write, by the layer that is refused 8 or is COWD.
    pub(crate) fn count_layer(&mut self, call: Call, written: Written, layers: &[&[u8]]) {
        let refused = |image: &&&[u8]| plain::check(image).number != 0;
        if let Some(image) = layers.iter().find(refused) {
            self.count_cowd(call, [written.number, written.place], image);
            if written.number == 8 {
                self.count_outside(call, written.place, image);
            }
        }
        let verdicts: Vec<bool> = layers.iter().map(|image| refused(&image)).collect();
        match (written.number, &verdicts[..]) {
            (8, [true, false]) => self.tally.answered(call, "8, lower alone"),
            (8, [false, true]) => self.tally.answered(call, "8, upper alone"),
            _ => {}
        }
    }

    /// Rows of a lookup in an image that the check refuses 8: by the part, where the sector is served or past the end.
    pub(crate) fn count_met(&mut self, call: Call, located: Located, image: &[u8]) {
        let verdict = plain::check(image);
        if verdict.number != 8 {
            return;
        }
        let row = match (located.number, verdict.place) {
            (0, 1) => "found, 8 with place 1",
            (0, 3) => "found, 8 with place 3",
            (0, 4) => "found, 8 with place 4",
            (0, 5) => "found, 8 with place 5",
            (20, _) if [Call::Lookup, Call::Steps].contains(&call) => "20, 8 too",
            (8, _) if call != Call::Read => return self.count_at_0(call, located.place, image),
            _ => return,
        };
        self.tally.answered(call, row);
    }

    /// The row of a directory at sector 0.
    fn count_at_0(&mut self, call: Call, place: u64, image: &[u8]) {
        if place == 2 && Judged::of(image).directory == 0 {
            self.tally.answered(call, "8, directory at 0");
        }
    }
}
