//! A strip of the disk, made grain by grain. Grains that are going to be one part are added at once: a disk may have millions.

use super::kind::Kind;
use super::part::Part;
use super::parts::Parts;
use anhkhovet::{Refusal, Source};

/// One grain, as far as it lies below capacity.
#[derive(Clone, Copy)]
pub struct Grain {
    pub number: u64,
    pub first: u64,
    pub sectors: u64,
}

/// What a strip has there.
#[derive(Clone, Copy, PartialEq, Eq)]
pub struct Found {
    pub answer: Result<Kind, Refusal>,
    pub hidden: bool,
    /// As a part has them.
    pub layers: u16,
}

impl Found {
    pub fn of(answer: Result<Source, Refusal>) -> Found {
        Found {
            answer: answer.map(Kind::of),
            hidden: false,
            layers: 0,
        }
    }
}

pub struct Row {
    parts: Parts,
    /// Grains in a row that are alike: what they are, the first of them, the sectors of all and the number of the last.
    alike: Option<(Found, Grain, u64)>,
}

impl Row {
    pub fn new(parts: Parts) -> Row {
        Row { parts, alike: None }
    }

    pub fn add(&mut self, grain: Grain, found: Found) {
        let cell = self.parts.cell();
        if let Some((known, all, last)) = &mut self.alike {
            let sectors = all.sectors + grain.sectors;
            let one = match found.answer {
                Ok(Kind::Absent | Kind::Zero) => true,
                // Each has an edge of its own, as long as it can be seen.
                Ok(_) => sectors <= cell,
                Err(_) => false,
            };
            if one && *known == found {
                all.sectors = sectors;
                *last = grain.number;
                return;
            }
        }
        self.flush();
        self.alike = Some((found, grain, grain.number));
    }

    fn flush(&mut self) {
        if let Some((found, grain, last)) = self.alike.take() {
            let kind = found.answer.unwrap_or(Kind::Refused);
            let grains = (grain.number, last);
            self.parts.push(Part {
                refused: found.answer.err(),
                layers: found.layers,
                ..Part::of_grains(grain.first, grain.sectors, kind, grains, found.hidden)
            });
        }
    }

    pub fn done(mut self) -> Vec<Part> {
        self.flush();
        self.parts.done()
    }
}
