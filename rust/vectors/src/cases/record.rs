//! The generators of `compare`, listened to: a side that keeps what it is asked and answers as the plain one does.

use super::{
    Case, CHAIN, CHECK_IN, CLOSE, COLLAPSE, FIND, FRAME, IMAGE, MEND, MOVE, PROFILE, SEARCHED,
    SHORT, SHORT_TALLY, SPLIT, STEPS, SURVEY, TEXT,
};
use crate::numbers::extent;
use compare::side::{Plain, Side};
use plain::{
    Closed, Described, Extent, Found, Framed, Head, Located, Marked, Mended, Part, Steps, Surveyed,
    Verdict, Written,
};
use std::cell::RefCell;

#[derive(Default)]
pub struct Recorder {
    cases: RefCell<Vec<Case>>,
}

impl Recorder {
    /// What was asked since the last time.
    pub fn take(&self) -> Vec<Case> {
        self.cases.take()
    }

    /// Keeps a question; one about the same bytes as the last one is added to it.
    fn keep(&self, case: Case) {
        let mut cases = self.cases.borrow_mut();
        match cases.last_mut().filter(|last| joins(last, &case)) {
            None => cases.push(case),
            Some(last) => {
                last.room = last.room.max(case.room);
                for sector in case.sectors {
                    if !last.sectors.contains(&sector) {
                        last.sectors.push(sector);
                    }
                }
            }
        }
    }

    /// A call that writes over a list or an output of this room.
    fn lent(&self, asked: u64, image: &[u8], room: usize) {
        self.keep(Case {
            asked,
            bytes: image.to_vec(),
            room: room as u64,
            ..Case::default()
        });
    }

    fn image(&self, image: &[u8], sectors: &[u64]) {
        self.keep(Case {
            asked: IMAGE,
            sectors: sectors.to_vec(),
            bytes: image.to_vec(),
            ..Case::default()
        });
    }
}

/// Whether two questions are about the same bytes. Of an image's questions only the normal form's has a room.
fn joins(last: &Case, case: &Case) -> bool {
    let same = (last.asked, &last.lengths, &last.bytes) == (case.asked, &case.lengths, &case.bytes);
    same && (last.asked == IMAGE || last.room == case.room)
}

impl Side for Recorder {
    fn check(&self, image: &[u8]) -> Verdict {
        self.image(image, &[]);
        Plain.check(image)
    }
    fn check_in(&self, image: &[u8], list: &mut [u64]) -> Marked {
        self.lent(CHECK_IN, image, list.len());
        Plain.check_in(image, list)
    }
    fn profile(&self, image: &[u8]) -> Verdict {
        self.lent(PROFILE, image, 0);
        Plain.profile(image)
    }
    fn header(&self, image: &[u8]) -> Head {
        self.image(image, &[]);
        Plain.header(image)
    }
    fn lookup(&self, image: &[u8], sector: u64) -> Located {
        self.image(image, &[sector]);
        Plain.lookup(image, sector)
    }
    fn steps(&self, image: &[u8], sector: u64) -> Steps {
        self.keep(Case {
            asked: STEPS,
            sectors: vec![sector],
            bytes: image.to_vec(),
            ..Case::default()
        });
        Plain.steps(image, sector)
    }
    fn chain(&self, layers: &[u8], lengths: &[u64], sector: u64) -> Located {
        self.keep(Case {
            asked: CHAIN,
            sectors: vec![sector],
            lengths: lengths.to_vec(),
            bytes: layers.to_vec(),
            room: 0,
        });
        Plain.chain(layers, lengths, sector)
    }
    fn read(&self, image: &[u8], sector: u64) -> Part {
        self.image(image, &[sector]);
        Plain.read(image, sector)
    }
    fn frame(&self, image: &[u8], list: &mut [u64]) -> Framed {
        self.lent(FRAME, image, list.len());
        Plain.frame(image, list)
    }
    fn survey(
        &self,
        images: &[u8],
        lengths: &[u64],
        rows: &mut [u64],
        tally: &mut [u64],
    ) -> Surveyed {
        let short = if tally.len() <= SHORT_TALLY { SHORT } else { 0 };
        self.keep(Case {
            asked: SURVEY,
            lengths: lengths.to_vec(),
            bytes: images.to_vec(),
            room: rows.len() as u64 + short,
            ..Case::default()
        });
        Plain.survey(images, lengths, rows, tally)
    }
    fn mend(&self, image: &mut [u8], good: u64, changes: &mut [u64]) -> Mended {
        self.keep(Case {
            asked: MEND,
            lengths: vec![good, changes.len() as u64],
            bytes: image.to_vec(),
            room: image.len() as u64,
            ..Case::default()
        });
        Plain.mend(image, good, changes)
    }
    fn normal(&self, image: &[u8], out: &mut [u8]) -> Written {
        self.lent(IMAGE, image, out.len());
        Plain.normal(image, out)
    }
    fn collapse(&self, lower: &[u8], upper: &[u8], out: &mut [u8]) -> Written {
        self.keep(Case {
            asked: COLLAPSE,
            lengths: vec![lower.len() as u64, upper.len() as u64],
            bytes: [lower, upper].concat(),
            room: out.len() as u64,
            ..Case::default()
        });
        Plain.collapse(lower, upper, out)
    }
    fn to_kdmv(&self, image: &[u8], out: &mut [u8]) -> Written {
        self.lent(MOVE, image, out.len());
        Plain.to_kdmv(image, out)
    }
    fn to_cowd(&self, image: &[u8], out: &mut [u8]) -> Written {
        self.lent(MOVE, image, out.len());
        Plain.to_cowd(image, out)
    }
    fn close(&self, image: &[u8], out: &mut [u8]) -> Closed {
        self.lent(CLOSE, image, out.len());
        Plain.close(image, out)
    }
    fn descriptor(&self, text: &[u8], list: &mut [Extent]) -> Described {
        self.keep(Case {
            asked: TEXT,
            bytes: text.to_vec(),
            ..Case::default()
        });
        Plain.descriptor(text, list)
    }
    fn find(&self, list: &[Extent], sector: u64) -> Found {
        // The program's list has one length: records of no sectors fill it, and longer lists are left out.
        let mut records = list.to_vec();
        if records.len() <= SEARCHED {
            records.resize(SEARCHED, Extent::default());
            let numbers = records.iter().flat_map(extent);
            self.keep(Case {
                asked: FIND,
                sectors: vec![sector],
                bytes: numbers.flat_map(u64::to_le_bytes).collect(),
                ..Case::default()
            });
        }
        Plain.find(list, sector)
    }
    fn split(&self, text: &[u8], files: &[u8], lengths: &[u64], sector: u64) -> Located {
        self.keep(Case {
            asked: SPLIT,
            sectors: vec![sector],
            lengths: [&[text.len() as u64], lengths].concat(),
            bytes: [text, files].concat(),
            room: 0,
        });
        Plain.split(text, files, lengths, sector)
    }
}
