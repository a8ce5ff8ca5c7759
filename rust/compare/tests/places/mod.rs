//! Mistakes about the place of refusal 8, in every call that gives it: the plain side with another place, or with lookups that
//! judge what they do not.

use crate::miscounts::parts;
use crate::told::{assert_each_is_caught, Wrong};
use compare::places::{half_described, outside};
use compare::side::{Plain, Side};
use compare::tally::Call::{self, *};
use plain::{
    Closed, Described, Extent, Found, Framed, Head, Located, Marked, Mended, Part, Steps, Surveyed,
    Verdict, Written,
};

#[derive(Clone, Copy, Debug, PartialEq)]
enum Mistake {
    NoPlace,
    FromZero,
    TableAsCopy,
    CopyAsTable,
    HalfDescriptorAsDirectory,
    Highest,
    DirectoryBeforeDescriptor,
    RedundantBeforeDirectory,
    TablesBeforeRedundant,
    CopiesBeforeTables,
    DescriptorJudgedByLookups,
    CopiesJudgedByLookups,
    LowestNamedByLookups,
    Before20,
    TopLayerNamed,
    UpperFirst,
}

use Mistake::*;

/// Each mistake, and the calls that have to be caught in it.
const ALL: &[(Mistake, &[Call])] = &[
    (NoPlace, OF_TABLES),
    (FromZero, OF_TABLES),
    (TableAsCopy, OF_TABLES),
    (CopyAsTable, OF_PARTS),
    (HalfDescriptorAsDirectory, OF_PARTS),
    (Highest, OF_PARTS),
    (DirectoryBeforeDescriptor, OF_PARTS),
    (RedundantBeforeDirectory, OF_PARTS),
    (TablesBeforeRedundant, OF_PARTS),
    (CopiesBeforeTables, OF_PARTS),
    (DescriptorJudgedByLookups, &[Lookup, Steps, Chain]),
    (CopiesJudgedByLookups, &[Lookup, Steps, Chain]),
    (LowestNamedByLookups, &[Lookup, Steps, Chain]),
    (Before20, &[Lookup, Steps]),
    (TopLayerNamed, &[Chain]),
    (UpperFirst, &[Collapse]),
];

const OF_PARTS: &[Call] = &[
    Check, CheckIn, Profile, Frame, Survey, Mend, Normal, Collapse, ToKdmv, ToCowd, Split,
];
const OF_TABLES: &[Call] = &[
    Check, CheckIn, Profile, Frame, Survey, Mend, Normal, Collapse, ToKdmv, ToCowd, Split, Lookup,
    Steps, Chain,
];

impl Mistake {
    /// The place that a call gives which judges all parts of an image.
    fn place(self, place: u64, image: &[u8]) -> u64 {
        let out = outside(image);
        match (self, place) {
            (Highest, _) => 5 - out.iter().rev().position(|is| *is).unwrap() as u64,
            (HalfDescriptorAsDirectory, 1) if half_described(image) => 2,
            (DirectoryBeforeDescriptor, 1) if out[1] => 2,
            (RedundantBeforeDirectory, 2) if out[2] => 3,
            (TablesBeforeRedundant, 3) if out[3] => 4,
            (CopiesBeforeTables, 4) if out[4] => 5,
            (CopyAsTable, 5) => 4,
            _ => self.place_of_lookup(place),
        }
    }

    /// The same, whatever else lies outside.
    fn place_of_lookup(self, place: u64) -> u64 {
        match (self, place) {
            (NoPlace, _) => 0,
            (FromZero, _) => place - 1,
            (TableAsCopy, 4) => 5,
            _ => place,
        }
    }

    /// What a lookup met in a layer judges too much, or names otherwise; the plain side's number is 0 or 8 to 10 there.
    fn met(self, located: Located, image: &[u8]) -> Located {
        let out = outside(image);
        let place = match (self, located.number) {
            (DescriptorJudgedByLookups, _) if out[0] => 1,
            (CopiesJudgedByLookups, _) if out[2] => 3,
            (CopiesJudgedByLookups, _) if out[4] => 5,
            (LowestNamedByLookups, 8) => Plain.check(image).place,
            (_, 8) => self.place_of_lookup(located.place),
            _ => return located,
        };
        Located {
            number: 8,
            place,
            layer: located.layer,
            ..Located::default()
        }
    }

    /// What a lookup says of an image alone.
    fn lookup(self, image: &[u8], sector: u64) -> Located {
        let plain = Plain.lookup(image, sector);
        match (self, plain.number) {
            (Before20, 20) if outside(image)[1] => Located {
                number: 8,
                place: 2,
                ..plain
            },
            (_, 0 | 8..=10) => self.met(plain, image),
            _ => plain,
        }
    }
}

impl Wrong<Mistake> {
    /// The place of an answer by a call that judges all parts.
    fn place(&self, number: u64, place: u64, image: &[u8]) -> u64 {
        match number {
            8 => self.mistake.place(place, image),
            _ => place,
        }
    }
}

/// The layers that a lookup down a chain meets, the topmost first, with their numbers.
fn walked<'a>(layers: &'a [u8], lengths: &[u64], located: Located) -> Vec<(u64, &'a [u8])> {
    let numbered = (0..).zip(parts(layers, lengths));
    let met = numbered.filter(|(number, _)| *number >= located.layer);
    let mut met: Vec<_> = met.collect();
    met.reverse();
    met
}

/// The answer on one image of a call that judges all parts.
macro_rules! placed {
    ($self:ident, $call:ident, $image:ident, $plain:expr => $answer:ident) => {{
        let plain = $plain;
        let place = $self.place(plain.number, plain.place, $image);
        $self.told($call, plain, $answer { place, ..plain })
    }};
}

impl Side for Wrong<Mistake> {
    fn check(&self, image: &[u8]) -> Verdict {
        placed!(self, Check, image, Plain.check(image) => Verdict)
    }

    fn check_in(&self, image: &[u8], list: &mut [u64]) -> Marked {
        placed!(self, CheckIn, image, Plain.check_in(image, list) => Marked)
    }

    fn profile(&self, image: &[u8]) -> Verdict {
        placed!(self, Profile, image, Plain.profile(image) => Verdict)
    }

    fn header(&self, image: &[u8]) -> Head {
        Plain.header(image)
    }

    fn lookup(&self, image: &[u8], sector: u64) -> Located {
        let told = self.mistake.lookup(image, sector);
        self.told(Lookup, Plain.lookup(image, sector), told)
    }

    fn steps(&self, image: &[u8], sector: u64) -> Steps {
        let plain = Plain.steps(image, sector);
        let Located { number, place, .. } = self.mistake.lookup(image, sector);
        let told = Steps {
            number,
            place,
            ..plain
        };
        self.told(Steps, plain, told)
    }

    fn chain(&self, layers: &[u8], lengths: &[u64], sector: u64) -> Located {
        let plain = Plain.chain(layers, lengths, sector);
        let mut told = plain;
        if [0, 8, 9, 10].contains(&plain.number) {
            let met = walked(layers, lengths, plain).into_iter();
            let mut answers = met.map(|(layer, image)| {
                let alone = Plain.lookup(image, sector);
                self.mistake.met(Located { layer, ..alone }, image)
            });
            told = answers.find(|found| found.number != 0).unwrap_or(plain);
        }
        if self.mistake == TopLayerNamed && told.number == 8 {
            told.layer = lengths.len() as u64 - 1;
        }
        self.told(Chain, plain, told)
    }

    fn read(&self, image: &[u8], sector: u64) -> Part {
        Plain.read(image, sector)
    }

    fn frame(&self, image: &[u8], list: &mut [u64]) -> Framed {
        placed!(self, Frame, image, Plain.frame(image, list) => Framed)
    }

    fn survey(
        &self,
        images: &[u8],
        lengths: &[u64],
        rows: &mut [u64],
        tally: &mut [u64],
    ) -> Surveyed {
        let surveyed = Plain.survey(images, lengths, rows, tally);
        let before = rows.to_vec();
        if surveyed.number == 0 {
            for (image, row) in parts(images, lengths).into_iter().zip(rows.chunks_mut(6)) {
                row[5] = self.place(row[4], row[5], image);
            }
        }
        self.told(Survey, &before[..], &*rows);
        surveyed
    }

    fn mend(&self, image: &mut [u8], good: u64, changes: &mut [u64]) -> Mended {
        placed!(self, Mend, image, Plain.mend(image, good, changes) => Mended)
    }

    fn normal(&self, image: &[u8], out: &mut [u8]) -> Written {
        placed!(self, Normal, image, Plain.normal(image, out) => Written)
    }

    fn to_kdmv(&self, image: &[u8], out: &mut [u8]) -> Written {
        placed!(self, ToKdmv, image, Plain.to_kdmv(image, out) => Written)
    }

    fn to_cowd(&self, image: &[u8], out: &mut [u8]) -> Written {
        placed!(self, ToCowd, image, Plain.to_cowd(image, out) => Written)
    }
    fn close(&self, image: &[u8], out: &mut [u8]) -> Closed {
        Plain.close(image, out)
    }

    fn collapse(&self, lower: &[u8], upper: &[u8], out: &mut [u8]) -> Written {
        let plain = Plain.collapse(lower, upper, out);
        let verdicts = [lower, upper].map(|image| Plain.check(image));
        let of_lower = verdicts[0].number != 0;
        let mut place = self.place(
            plain.number,
            plain.place,
            if of_lower { lower } else { upper },
        );
        if self.mistake == UpperFirst && verdicts.iter().all(|verdict| verdict.number == 8) {
            place = verdicts[1].place;
        }
        self.told(Collapse, plain, Written { place, ..plain })
    }

    fn descriptor(&self, text: &[u8], list: &mut [Extent]) -> Described {
        Plain.descriptor(text, list)
    }

    fn find(&self, list: &[Extent], sector: u64) -> Found {
        Plain.find(list, sector)
    }

    fn split(&self, text: &[u8], files: &[u8], lengths: &[u64], sector: u64) -> Located {
        let plain = Plain.split(text, files, lengths, sector);
        let mut told = plain;
        if plain.number == 8 {
            let file = parts(files, lengths)[plain.layer as usize];
            told.place = self.place(plain.number, plain.place, file);
        }
        self.told(Split, plain, told)
    }
}

#[test]
fn each_mistake_about_places_is_caught_in_each_call() {
    assert_each_is_caught(ALL);
}
