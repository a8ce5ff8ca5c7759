//! Mistakes about COWD, which every call but the moves refuses 43: the plain side with another number, place or layer, or on
//! what the image is moved to.

mod layers;

use crate::miscounts::parts;
use crate::told::{assert_each_is_caught, Wrong};
use compare::cowd::{head, is_cowd, kept_check};
use compare::moves::result;
use compare::side::{Plain, Side};
use compare::tally::Call::{self, *};
use plain::{
    Closed, Described, Extent, Found, Framed, Head, Located, Marked, Mended, Part, Steps, Surveyed,
    Verdict, Written,
};
use std::borrow::Cow;

#[derive(Clone, Copy, Debug, PartialEq)]
pub enum Mistake {
    Before1,
    After3,
    AfterTheCheck,
    After20,
    As2,
    WithPlace,
    OldNumber,
    LetThrough,
    LowerLetThrough,
    UpperLetThrough,
    PassedOver,
    NotNamed,
    BaseLetThrough,
    FromTheBase,
    WhereMet,
    NotTallied,
    NotInItsRow,
    NoSurvey,
}

use Mistake::*;

/// Each mistake, and the calls that have to be caught in it.
const ALL: &[(Mistake, &[Call])] = &[
    (Before1, OF_COWD),
    (After3, OF_COWD),
    (AfterTheCheck, OF_COWD),
    (After20, &[Lookup, Steps, Chain]),
    (As2, OF_COWD),
    (WithPlace, OF_COWD),
    (OldNumber, &[Profile, Mend, Normal, Collapse, Close]),
    (LetThrough, OF_COWD_AND_READ),
    (LowerLetThrough, &[Collapse]),
    (UpperLetThrough, &[Collapse]),
    (PassedOver, &[Chain]),
    (NotNamed, &[Chain]),
    (BaseLetThrough, &[Chain]),
    (FromTheBase, &[Chain]),
    (WhereMet, &[Chain]),
    (NotTallied, &[Survey]),
    (NotInItsRow, &[Survey]),
    (NoSurvey, &[Survey]),
];

const OF_COWD: &[Call] = &[
    Check, CheckIn, Profile, Header, Lookup, Steps, Chain, Frame, Survey, Mend, Normal, Collapse,
    Close,
];
const OF_COWD_AND_READ: &[Call] = &[
    Check, CheckIn, Profile, Header, Lookup, Steps, Chain, Read, Frame, Survey, Mend, Normal,
    Collapse, Close,
];

/// The KDMV image of a COWD one, where it can be moved.
pub fn moved(image: &[u8]) -> Option<Vec<u8>> {
    result(ToKdmv, image)
}

impl Mistake {
    /// Another refusal of a COWD image.
    fn judge(self, call: Call, [number, place]: [u64; 2], image: &[u8]) -> [u64; 2] {
        if !is_cowd(image) {
            return [number, place];
        }
        let kept = kept_check(image);
        let old = match call {
            Profile | Normal | Collapse => 23,
            Mend => 40,
            Close => 41,
            _ => 43,
        };
        match (self, number) {
            (Before1, 1) => [43, 0],
            (After3, 43) if kept.number == 3 => [3, 0],
            (AfterTheCheck, 43) if kept.number != 0 => [kept.number, kept.place],
            (As2, 43) => [2, 0],
            (WithPlace, 43) => [43, 1],
            (OldNumber, 43) if kept.number == 0 => [old, 0],
            _ => [number, place],
        }
    }

    /// The image as the side takes it.
    fn seen<'a>(self, image: &'a [u8]) -> Cow<'a, [u8]> {
        match (self, moved(image)) {
            (LetThrough, Some(moved)) => moved.into(),
            _ => image.into(),
        }
    }

    fn lookup(self, plain: Located, image: &[u8], sector: u64) -> Located {
        let [number, place] = self.judge(Lookup, [plain.number, plain.place], image);
        let head = head(image);
        let past = head.number == 0 && sector >= head.capacity;
        let number = match self {
            After20 if number == 43 && past => 20,
            _ => number,
        };
        Located {
            number,
            place,
            ..plain
        }
    }
}

/// The answer on one image.
macro_rules! judged {
    ($self:ident, $call:ident, $image:ident, $answer:ident, $ask:expr) => {{
        let plain = $ask($image);
        let told = match $self.mistake.seen($image) {
            Cow::Owned(moved) => $ask(&moved),
            _ => {
                let refused = [plain.number, plain.place];
                let [number, place] = $self.mistake.judge($call, refused, $image);
                $answer {
                    number,
                    place,
                    ..plain
                }
            }
        };
        $self.told($call, plain, told)
    }};
}

impl Side for Wrong<Mistake> {
    fn check(&self, image: &[u8]) -> Verdict {
        judged!(self, Check, image, Verdict, |image| Plain.check(image))
    }

    fn check_in(&self, image: &[u8], list: &mut [u64]) -> Marked {
        judged!(self, CheckIn, image, Marked, |image| Plain
            .check_in(image, list))
    }

    fn profile(&self, image: &[u8]) -> Verdict {
        judged!(self, Profile, image, Verdict, |image| Plain.profile(image))
    }

    fn header(&self, image: &[u8]) -> Head {
        judged!(self, Header, image, Head, |image| Plain.header(image))
    }

    fn lookup(&self, image: &[u8], sector: u64) -> Located {
        let plain = Plain.lookup(image, sector);
        let told = match self.mistake.seen(image) {
            Cow::Owned(moved) => Plain.lookup(&moved, sector),
            _ => self.mistake.lookup(plain, image, sector),
        };
        self.told(Lookup, plain, told)
    }

    fn steps(&self, image: &[u8], sector: u64) -> Steps {
        let plain = Plain.steps(image, sector);
        let told = match self.mistake.seen(image) {
            Cow::Owned(moved) => Plain.steps(&moved, sector),
            _ => {
                let alone = Plain.lookup(image, sector);
                let Located { number, place, .. } = self.mistake.lookup(alone, image, sector);
                Steps {
                    number,
                    place,
                    ..plain
                }
            }
        };
        self.told(Steps, plain, told)
    }

    fn chain(&self, layers: &[u8], lengths: &[u64], sector: u64) -> Located {
        let plain = Plain.chain(layers, lengths, sector);
        let told = match plain.number {
            1..=7 | 43 => self.mistake.chain(plain, &parts(layers, lengths), sector),
            _ => plain,
        };
        self.told(Chain, plain, told)
    }

    fn read(&self, image: &[u8], sector: u64) -> Part {
        let plain = Plain.read(image, sector);
        let told = Plain.read(&self.mistake.seen(image), sector);
        self.told(Read, plain, told)
    }

    fn frame(&self, image: &[u8], list: &mut [u64]) -> Framed {
        judged!(self, Frame, image, Framed, |image| Plain.frame(image, list))
    }

    fn survey(
        &self,
        images: &[u8],
        lengths: &[u64],
        rows: &mut [u64],
        tally: &mut [u64],
    ) -> Surveyed {
        let held = [rows.to_vec(), tally.to_vec()];
        let plain = Plain.survey(images, lengths, rows, tally);
        if plain.number != 0 {
            return plain;
        }
        let before = (plain, rows.to_vec(), tally.to_vec());
        let parts = parts(images, lengths);
        let answer = self.mistake.survey(plain, &parts, rows, tally, &held);
        let told = (answer, rows.to_vec(), tally.to_vec());
        self.told(Survey, before, told).0
    }

    fn mend(&self, image: &mut [u8], good: u64, changes: &mut [u64]) -> Mended {
        let lent = &*image;
        let mut after = None;
        let told = judged!(self, Mend, lent, Mended, |image: &[u8]| {
            let mut image = image.to_vec();
            let mended = Plain.mend(&mut image, good, changes);
            after.get_or_insert(image);
            mended
        });
        if let Some(after) = after {
            image.copy_from_slice(&after);
        }
        told
    }

    fn normal(&self, image: &[u8], out: &mut [u8]) -> Written {
        judged!(self, Normal, image, Written, |image| Plain
            .normal(image, out))
    }

    fn collapse(&self, lower: &[u8], upper: &[u8], out: &mut [u8]) -> Written {
        let plain = Plain.collapse(lower, upper, out);
        let told = self.mistake.collapse(plain, [lower, upper], out);
        self.told(Collapse, plain, told)
    }

    fn to_kdmv(&self, image: &[u8], out: &mut [u8]) -> Written {
        Plain.to_kdmv(image, out)
    }

    fn to_cowd(&self, image: &[u8], out: &mut [u8]) -> Written {
        Plain.to_cowd(image, out)
    }

    fn close(&self, image: &[u8], out: &mut [u8]) -> Closed {
        judged!(self, Close, image, Closed, |image| Plain.close(image, out))
    }

    fn descriptor(&self, text: &[u8], list: &mut [Extent]) -> Described {
        Plain.descriptor(text, list)
    }

    fn find(&self, list: &[Extent], sector: u64) -> Found {
        Plain.find(list, sector)
    }

    fn split(&self, text: &[u8], files: &[u8], lengths: &[u64], sector: u64) -> Located {
        Plain.split(text, files, lengths, sector)
    }
}

#[test]
fn each_mistake_about_cowd_is_caught_in_each_call() {
    assert_each_is_caught(ALL);
}
