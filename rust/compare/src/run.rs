//! One call on both sides: compared, counted, and its input saved where the sides differ.

use crate::ones;
use crate::side::Side;
use crate::tally::{Call, Tally};
use plain::{Extent, Verdict};
use std::fmt::Debug;
use std::fs;
use std::path::PathBuf;

/// Differences whose input is saved and printed; the rest is only counted.
const MOST_SAVED: u64 = 20;

pub struct Run<'a> {
    /// The side under test, and the one that it is compared with.
    pub(crate) sides: [&'a dyn Side; 2],
    pub tally: Tally,
    folder: PathBuf,
    /// What a report names, so that a case can be run again.
    pub case: u64,
    pub quiet: bool,
    /// Whether inputs of differences are written to files.
    pub saves: bool,
    patterns: Vec<u8>,
    outs: [Vec<u8>; 2],
}

impl<'a> Run<'a> {
    pub fn new(sides: [&'a dyn Side; 2], calls: Vec<Call>, folder: PathBuf) -> Run<'a> {
        let patterns = (0..1 << 16).map(|i: u32| (i * 7 + i / 251 + 129) as u8);
        Run {
            sides,
            tally: Tally::new(calls),
            folder,
            case: 0,
            quiet: false,
            saves: true,
            patterns: patterns.collect(),
            outs: [Vec::new(), Vec::new()],
        }
    }

    pub fn compares(&self, call: Call) -> bool {
        self.tally.calls.contains(&call)
    }

    /// Counts one comparison. `lent` says whether the lent memory is alike afterwards.
    pub(crate) fn compare<T: Debug + PartialEq>(
        &mut self,
        call: Call,
        answers: [&T; 2],
        lent: bool,
        inputs: &[&[u8]],
        words: &dyn Debug,
    ) {
        self.tally.comparisons += 1;
        if answers[0] == answers[1] && lent {
            return;
        }
        self.tally.differences += 1;
        if self.quiet || self.tally.differences > MOST_SAVED {
            return;
        }
        println!("difference: {call:?} in case {} with {words:?}", self.case);
        println!("  tested: {:?}", answers[0]);
        println!("  plain:  {:?}", answers[1]);
        if !lent {
            println!("  the lent memory differs");
        }
        for (index, input) in inputs.iter().enumerate().filter(|_| self.saves) {
            let name = format!("{call:?}-{}-{index}", self.case).to_lowercase();
            let path = self.folder.join(name);
            match fs::create_dir_all(&self.folder).and_then(|()| fs::write(&path, input)) {
                Ok(()) => println!("  input:  {}", path.display()),
                Err(error) => println!("  input not saved: {error}"),
            }
        }
    }

    pub fn check(&mut self, image: &[u8]) {
        let answers = self.sides.map(|side| side.check(image));
        self.compare(Call::Check, [&answers[0], &answers[1]], true, &[image], &());
        self.count_accepted(Call::Check, answers[1], image);
        self.count_ones(Call::Check, answers[1], image);
    }

    pub fn header(&mut self, image: &[u8]) {
        let answers = self.sides.map(|side| side.header(image));
        self.compare(
            Call::Header,
            [&answers[0], &answers[1]],
            true,
            &[image],
            &(),
        );
        let verdict = Verdict {
            number: answers[1].number,
            capacity: answers[1].capacity,
            grain_size: answers[1].grain_size,
            ..Verdict::default()
        };
        self.count_accepted(Call::Header, verdict, image);
    }

    /// Rows of an accepted image, by what its header has.
    pub(crate) fn count_accepted(&mut self, call: Call, verdict: Verdict, image: &[u8]) {
        if verdict.number != 0 {
            self.tally.refused(call, verdict.number, verdict.place);
            self.count_cowd(call, [verdict.number, verdict.place], image);
            match verdict.number {
                5 if ones::flag_alone(image) => self.tally.answered(call, "5, flag 0x4 alone"),
                8 => self.count_outside(call, verdict.place, image),
                _ => {}
            }
            return;
        }
        self.count_dirty(call, image);
        let set = |range: std::ops::Range<usize>| image[range].iter().any(|byte| *byte != 0);
        let rows = [
            ("accepted", true),
            ("accepted, footer", image[56..64] == [255; 8]),
            ("accepted, redundant", set(48..56)),
            ("accepted, descriptor", set(28..36)),
            ("accepted, packed", set(77..78)),
            (
                "accepted, n above 1",
                verdict.capacity > 512 * verdict.grain_size,
            ),
            ("accepted, odd length", image.len() % 512 != 0),
            ("accepted, 1 is zeros", ones::one_is_zero(image)),
            ("accepted, 1 a sector", !ones::one_is_zero(image)),
        ];
        for (row, holds) in rows {
            if holds {
                self.tally.answered(call, row);
            }
        }
    }

    pub fn normal(&mut self, image: &[u8], room: usize) {
        let number = self.write(Call::Normal, &[image], room, |side, out| {
            side.normal(image, out)
        });
        self.count_unwritten(Call::Normal, number, &[image], room);
    }

    pub fn collapse(&mut self, lower: &[u8], upper: &[u8], room: usize) {
        let layers = [lower, upper];
        let number = self.write(Call::Collapse, &layers, room, |side, out| {
            side.collapse(lower, upper, out)
        });
        self.count_pair(number, lower, upper);
        self.count_unwritten(Call::Collapse, number, &layers, room);
    }

    /// Both outputs hold the same pattern before, and are compared byte for byte after. The plain side's answer.
    pub(crate) fn lend_output<T: Debug + PartialEq>(
        &mut self,
        call: Call,
        inputs: &[&[u8]],
        room: usize,
        with: impl Fn(&dyn Side, &mut [u8]) -> T,
    ) -> T {
        for out in &mut self.outs {
            out.clear();
            while out.len() < room {
                let more = self.patterns.len().min(room - out.len());
                out.extend_from_slice(&self.patterns[..more]);
            }
        }
        let tested = with(self.sides[0], &mut self.outs[0]);
        let plain = with(self.sides[1], &mut self.outs[1]);
        let lent = self.outs[0] == self.outs[1];
        self.compare(call, [&tested, &plain], lent, inputs, &room);
        plain
    }

    /// An image is written. The number of the answer.
    pub(crate) fn write(
        &mut self,
        call: Call,
        inputs: &[&[u8]],
        room: usize,
        with: impl Fn(&dyn Side, &mut [u8]) -> plain::Written,
    ) -> u64 {
        let plain = self.lend_output(call, inputs, room, with);
        if plain.number != 0 {
            self.tally.refused(call, plain.number, plain.place);
            self.count_layer(call, plain, inputs);
            return plain.number;
        }
        let exact = plain.length == room as u64;
        let rows = [
            ("written, exact room", exact),
            ("written, room left", !exact),
            (
                "written, grain at 1",
                inputs.iter().any(|image| ones::grain_at_1(image)),
            ),
        ];
        for (row, holds) in rows {
            if holds {
                self.tally.answered(call, row);
            }
        }
        0
    }

    /// What the plain side wrote, of the last answer with number 0: an image, whose length is the room or less.
    pub(crate) fn written(&self) -> &[u8] {
        &self.outs[1]
    }

    pub fn descriptor(&mut self, text: &[u8], list: &[Extent]) {
        let (plain, _) = self.lend(Call::Descriptor, text, list, |side, list| {
            side.descriptor(text, list)
        });
        if plain.number != 0 {
            self.tally.refused(Call::Descriptor, plain.number, 0);
            return;
        }
        self.tally.answered(Call::Descriptor, "described");
        if plain.extents == 32 {
            self.tally
                .answered(Call::Descriptor, "described, 32 extents");
        }
    }

    pub fn find(&mut self, list: &[Extent], sector: u64) {
        let answers = self.sides.map(|side| side.find(list, sector));
        let words = (list, sector);
        self.compare(Call::Find, [&answers[0], &answers[1]], true, &[], &words);
        match answers[1].number {
            0 => self.tally.answered(Call::Find, "found"),
            number => self.tally.refused(Call::Find, number, 0),
        }
    }

    /// Lent images must be as they were: a change counts as a difference.
    pub fn unchanged(&mut self, call: Call, before: &[u8], after: &[u8]) {
        self.compare(call, [&(), &()], before == after, &[before], &"lent image");
        self.tally.comparisons -= 1;
    }
}
