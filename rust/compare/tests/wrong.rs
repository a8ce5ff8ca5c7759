//! A side with one deliberate mistake must be caught, each of document 01's "mistakes to shut out" among them.

/// The plain side with a mistake: none, one of a file, one of a module below it.
macro_rules! mistakes {
    ($none:ident: $($name:ident)* $(; $of:ident $module:ident)*) => {
        #[derive(Clone, Copy, Debug, PartialEq)]
        pub enum Mistake {
            $none,
            $($name,)*
            $($of($module::Mistake),)*
        }

        use Mistake::*;

        /// Those of the file.
        pub const ALL: &[Mistake] = &[$($name),*];
    };
}

mod closes;
mod dirty;
mod frames;
mod gone;
mod marks;
mod mends;
mod miscounts;
mod moves;
mod ones;
mod places;
mod profiles;
mod splits;
mod told;
mod ways;

use compare::cases::case;
use compare::rng::Rng;
use compare::run::Run;
use compare::side::{Plain, Side};
use compare::tally::{Call, Tally};
use plain::{
    Closed, Described, Extent, Found, Framed, Head, Located, Marked, Mended, Part, Steps, Surveyed,
    Verdict, Written,
};
use std::path::PathBuf;

mistakes! {
    None:
    OverlapAccepted PlaceOfFirstGrain DescriptorNumbersSwapped PackedOffsetForgotten
    ZerosByVersion ZerosByFlag ZerosInTablesOnly OldZerosIn11 FlagInVersion1
    ZeroAsksTheParent LengthsThatWrap ShortPart LastGrainLeftOut EntryAsOneGrain RefusedInTotals
    NumberAtItsOwnWord TallyAddedTo ListsBefore21 WordPastTheRows SumThatWraps OneImageTooMany
    BytePastTheResult ByteOnRefusal LowerOverUpper RecordPastTheLast RecordOnRefusal
    LineFromZero EndThatWraps
    ; Split splits ; Dirty dirty ; Marks marks ; Frames frames ; Mends mends ; Moves moves ; Profiles profiles
    ; Closes closes ; Ways ways
}

impl Side for Mistake {
    fn check(&self, image: &[u8]) -> Verdict {
        let verdict = Plain.check(&self.seen(image));
        let mut verdict = self.judge_copies(verdict, image);
        if *self == OverlapAccepted && verdict.number == 12 {
            verdict.number = 0;
        }
        if *self == PlaceOfFirstGrain && verdict.number > 8 {
            verdict.place = 0;
        }
        match self {
            Dirty(mistake) => mistake.check(verdict, image),
            _ => verdict,
        }
    }

    fn check_in(&self, image: &[u8], list: &mut [u64]) -> Marked {
        match self {
            Marks(mistake) => mistake.check_in(image, list),
            _ => Plain.check_in(image, list),
        }
    }

    fn profile(&self, image: &[u8]) -> Verdict {
        match self {
            Profiles(mistake) => mistake.profile(image),
            _ => Plain.profile(image),
        }
    }

    fn header(&self, image: &[u8]) -> Head {
        let mut head = Plain.header(&self.seen(image));
        if *self == DescriptorNumbersSwapped {
            std::mem::swap(&mut head.descriptor, &mut head.descriptor_sectors);
        }
        match self {
            Dirty(mistake) => mistake.header(head, image),
            _ => head,
        }
    }

    fn lookup(&self, image: &[u8], sector: u64) -> Located {
        let located = Plain.lookup(&self.seen(image), sector);
        let mut located = self.locate(located, image, sector);
        if *self == PackedOffsetForgotten {
            located.offset = 0;
        }
        match self {
            Dirty(mistake) => mistake.lookup(located, image),
            _ => located,
        }
    }

    fn steps(&self, image: &[u8], sector: u64) -> Steps {
        match self {
            Ways(mistake) => mistake.steps(image, sector),
            _ => Plain.steps(&self.seen(image), sector),
        }
    }

    fn chain(&self, layers: &[u8], lengths: &[u64], sector: u64) -> Located {
        let mut located = Plain.chain(layers, lengths, sector);
        if *self == ZeroAsksTheParent && located.kind == plain::ZERO && located.layer > 0 {
            let below = located.layer as usize;
            let bytes: u64 = lengths[..below].iter().sum();
            located = Plain.chain(&layers[..bytes as usize], &lengths[..below], sector);
        }
        let wraps = wrapped(lengths) == layers.len() as u64;
        if *self == LengthsThatWrap && located.number == 24 && wraps {
            located.number = 1;
        }
        located
    }

    fn read(&self, image: &[u8], sector: u64) -> Part {
        let mut part = Plain.read(image, sector);
        if *self == ShortPart && part.length != 512 {
            part.length = part.length.min(500);
        }
        part
    }

    fn frame(&self, image: &[u8], list: &mut [u64]) -> Framed {
        match self {
            Frames(mistake) => mistake.frame(image, list),
            _ => Plain.frame(image, list),
        }
    }

    fn survey(
        &self,
        images: &[u8],
        lengths: &[u64],
        rows: &mut [u64],
        tally: &mut [u64],
    ) -> Surveyed {
        self.survey_wrongly(images, lengths, rows, tally)
    }

    fn mend(&self, image: &mut [u8], good: u64, changes: &mut [u64]) -> Mended {
        match self {
            Mends(mistake) => mistake.mend(image, good, changes),
            _ => Plain.mend(image, good, changes),
        }
    }

    fn normal(&self, image: &[u8], out: &mut [u8]) -> Written {
        if let Dirty(mistake) = self {
            return mistake.write(&[image], out);
        }
        let written = Plain.normal(image, out);
        let past = written.number == 0 && *self == BytePastTheResult;
        let refused = written.number != 0 && *self == ByteOnRefusal;
        if let (true, Some(byte)) = (past || refused, out.get_mut(written.length as usize)) {
            *byte = byte.wrapping_add(1);
        }
        written
    }

    fn collapse(&self, lower: &[u8], upper: &[u8], out: &mut [u8]) -> Written {
        match self {
            LowerOverUpper => Plain.collapse(upper, lower, out),
            Dirty(mistake) => mistake.write(&[lower, upper], out),
            _ => Plain.collapse(lower, upper, out),
        }
    }

    fn to_kdmv(&self, image: &[u8], out: &mut [u8]) -> Written {
        self.move_wrongly(false, image, out)
    }

    fn to_cowd(&self, image: &[u8], out: &mut [u8]) -> Written {
        self.move_wrongly(true, image, out)
    }

    fn close(&self, image: &[u8], out: &mut [u8]) -> Closed {
        match self {
            Closes(mistake) => mistake.close(image, out),
            _ => Plain.close(image, out),
        }
    }

    fn descriptor(&self, text: &[u8], list: &mut [Extent]) -> Described {
        let mut described = Plain.descriptor(text, list);
        let past = described.number == 0 && *self == RecordPastTheLast;
        let refused = described.number != 0 && *self == RecordOnRefusal;
        if let (true, Some(record)) = (past || refused, list.get_mut(described.extents as usize)) {
            *record = Extent::default();
        }
        if *self == LineFromZero {
            described.place = described.place.saturating_sub(1);
        }
        described
    }

    fn find(&self, list: &[Extent], sector: u64) -> Found {
        let wraps = |extent: &Extent| extent.first.checked_add(extent.sectors).is_none();
        let mut found = Plain.find(list, sector);
        if *self == EndThatWraps && found.number == 0 && wraps(&list[found.extent as usize]) {
            found.number = 20;
        }
        found
    }

    fn split(&self, text: &[u8], files: &[u8], lengths: &[u64], sector: u64) -> Located {
        match self {
            Split(mistake) => mistake.split(text, files, lengths, sector),
            _ => Plain.split(text, files, lengths, sector),
        }
    }
}

/// The sum of lengths, as u64 adds.
fn wrapped(lengths: &[u64]) -> u64 {
    let add = |sum: u64, next: &u64| sum.wrapping_add(*next);
    lengths.iter().fold(0, add)
}

/// What cases come to until it is enough, or as many were run as the gate runs.
fn tally_until(side: &dyn Side, enough: impl Fn(&Tally) -> bool) -> Tally {
    let mut run = Run::new([side, &Plain], Call::all(), PathBuf::new());
    run.quiet = true;
    let mut number = 0;
    while run.tally.comparisons < 100_000 && !enough(&run.tally) {
        case(&mut run, &mut Rng::new(1, number), number);
        number += 1;
    }
    run.tally
}

fn tally(side: &dyn Side, count: u64) -> Tally {
    tally_until(side, |tally| tally.comparisons >= count)
}

fn is_caught(mistake: Mistake) -> bool {
    let tally = tally_until(&mistake, |tally| tally.differences > 0);
    tally.differences > 0 && !tally.good()
}

#[test]
fn each_mistake_is_caught() {
    let others = splits::ALL.map(Split).into_iter();
    let others = others.chain(dirty::ALL.map(Dirty));
    let others = others.chain(marks::ALL.map(Marks));
    let others = others.chain(frames::ALL.map(Frames));
    let others = others.chain(mends::ALL.iter().copied().map(Mends));
    let others = others.chain(moves::ALL.iter().copied().map(Moves));
    let others = others.chain(profiles::ALL.iter().copied().map(Profiles));
    let others = others.chain(closes::ALL.iter().copied().map(Closes));
    for mistake in ALL.iter().copied().chain(others) {
        assert!(is_caught(mistake), "{mistake:?}");
    }
}

#[test]
fn the_plain_side_agrees_with_itself_and_reaches_every_place() {
    let tally = tally(&Mistake::None, 100_000);
    assert_eq!(tally.differences, 0);
    assert!(tally.good(), "{tally}");
}

/// Sectors marked are those of frame and lookups, mending that of frame and check, moves those of check and lookups, the profile
/// that of check and normal form, closing that of header and a walk, steps those of header and lookup.
#[test]
fn what_is_made_anew_agrees() {
    let marks = Marks(marks::Mistake::Recounted);
    let mends = Mends(mends::Mistake::Remade);
    let moves = Moves(moves::Mistake::Remade);
    let profiles = Profiles(profiles::Mistake::Remade);
    let closes = Closes(closes::Mistake::Remade);
    let ways = Ways(ways::Mistake::Remade);
    for remade in [moves, marks, mends, profiles, closes, ways] {
        assert_eq!(tally(&remade, 50_000).differences, 0, "{remade:?}");
    }
}
