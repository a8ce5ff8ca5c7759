//! The lines that the program prints for a case: a call and the numbers of its answer.

use super::{Case, CHAIN, CHECK_IN, CLOSE, COLLAPSE, FIND, FRAME, IMAGE, MEND, MOVE, PROFILE};
use super::{
    MOST_ROWS, MOST_WORDS, SEARCHED, SHORT, SHORT_TALLY, SPLIT, STEPS, SURVEY, TALLY, TEXT,
};
use crate::input::Input;
use crate::numbers::{described, digest, extent, found, handed_over, line, located, stepped};
use plain::{Extent, Refusal, Verdict, Written};

impl Case {
    pub fn lines(&self) -> Vec<String> {
        let mut lines = match self.asked {
            IMAGE => self.image_lines(),
            COLLAPSE => self.collapse_lines(),
            TEXT => self.text_lines(),
            FRAME => vec![self.frame_line()],
            SURVEY => self.survey_lines(),
            CHECK_IN => vec![self.check_in_line()],
            MEND => vec![self.mend_line()],
            MOVE => vec![
                self.moved_line("to_kdmv ", plain::to_kdmv),
                self.moved_line("to_cowd ", plain::to_cowd),
            ],
            PROFILE => vec![verdict_line("profile ", plain::profile(&self.bytes))],
            CLOSE => vec![self.close_line()],
            _ => Vec::new(),
        };
        for sector in &self.sectors {
            lines.extend(self.sector_lines(*sector));
        }
        lines
    }

    fn sector_lines(&self, sector: u64) -> Vec<String> {
        match self.asked {
            CHAIN => {
                let answer = plain::chain(&self.bytes, &self.lengths, sector);
                vec![line("chain ", &located(answer))]
            }
            TEXT | FIND => {
                let records = self.records();
                let find = || line("find ", &found(plain::find(&records, sector)));
                (!records.is_empty()).then(find).into_iter().collect()
            }
            SPLIT => vec![self.split_line(sector)],
            STEPS => vec![line("steps ", &stepped(plain::steps(&self.bytes, sector)))],
            _ => {
                let lookup = line("lookup ", &located(plain::lookup(&self.bytes, sector)));
                let part = plain::read(&self.bytes, sector);
                let read = &self.bytes[part.at as usize..(part.at + part.length) as usize];
                vec![lookup, line("read ", &[part.length, digest(read)])]
            }
        }
    }

    fn image_lines(&self) -> Vec<String> {
        let image = &self.bytes;
        let h = plain::header(image);
        let header = [
            h.number,
            h.place,
            h.capacity,
            h.grain_size,
            h.descriptor,
            h.descriptor_sectors,
            h.dirty,
        ];
        let result = plain::normal(image, self.room as usize);
        vec![
            verdict_line("check ", plain::check(image)),
            line("header ", &header),
            self.written_line("normal ", result),
        ]
    }

    /// A layer alone is put into normal form, more are collapsed in each order.
    fn collapse_lines(&self) -> Vec<String> {
        let mut input = Input::new(&self.bytes);
        let layers: Vec<&[u8]> = self.lengths.iter().map(|n| input.bytes(*n)).collect();
        let call = match layers[..] {
            [_] => "normal ",
            _ => "collapse ",
        };
        let results = collapsed(&layers, self.room as usize).into_iter();
        results.map(|one| self.written_line(call, one)).collect()
    }

    fn written_line(&self, call: &str, result: Result<Vec<u8>, Refusal>) -> String {
        self.output_line(call, |out| plain::over(result, out))
    }

    fn moved_line(&self, call: &str, way: fn(&[u8], &mut [u8]) -> Written) -> String {
        self.output_line(call, |out| way(&self.bytes, out))
    }

    /// The answer of a call that writes, and the digest of the whole output, whose bytes were 170 before.
    fn output_line(&self, call: &str, write: impl FnOnce(&mut [u8]) -> Written) -> String {
        let mut out = vec![170; self.room as usize];
        let w = write(&mut out);
        line(call, &[w.number, w.place, w.length, digest(&out)])
    }

    /// The answer of closing, and the digest of the whole output, whose bytes were 170 before.
    fn close_line(&self) -> String {
        let mut out = vec![170; self.room as usize];
        let c = plain::close(&self.bytes, &mut out);
        let answer = [c.number, c.place, c.sectors, c.grains, c.length];
        line(&line("close ", &answer), &[digest(&out)])
    }

    /// The list of a call that takes one: each word is 170.
    fn list(&self, words: u64) -> Vec<u64> {
        vec![170; MOST_WORDS.min(words as usize)]
    }

    /// The frame's answer, and the whole list.
    fn frame_line(&self) -> String {
        let mut list = self.list(self.room);
        let f = plain::frame(&self.bytes, &mut list);
        let answer = line("frame ", &[f.number, f.place, f.count]);
        line(&answer, &list)
    }

    /// The answer of the check in a list, and the whole list.
    fn check_in_line(&self) -> String {
        let mut list = self.list(self.room);
        let m = plain::check_in(&self.bytes, &mut list);
        let answer = [m.number, m.place, m.capacity, m.grain_size, m.marked];
        line(&line("check_in ", &answer), &list)
    }

    /// The answer of mending, the digest of the whole image after it, and the whole list.
    fn mend_line(&self) -> String {
        let mut image = self.bytes[..self.room as usize].to_vec();
        let mut list = self.list(self.lengths[1]);
        let m = plain::mend(&mut image, self.lengths[0], &mut list);
        let answer = [m.number, m.place, m.count, digest(&image)];
        line(&line("mend ", &answer), &list)
    }

    /// The survey's answer and the whole list of rows, then the whole tally; all words were 170 before.
    fn survey_lines(&self) -> Vec<String> {
        let (room, words) = match self.room.checked_sub(SHORT) {
            None => (self.room, TALLY),
            Some(left) => (left, SHORT_TALLY),
        };
        let mut rows = vec![170; MOST_ROWS.min(room as usize)];
        let mut tally = vec![170; words];
        let s = plain::survey(&self.bytes, &self.lengths, &mut rows, &mut tally);
        let answer = [s.number, s.place, s.stored, s.zero, s.absent, s.packed];
        vec![
            line(&line("survey ", &answer), &rows),
            line("tally ", &tally),
        ]
    }

    fn split_line(&self, sector: u64) -> String {
        let (text, files) = self.bytes.split_at(self.lengths[0] as usize);
        let answer = plain::split(text, files, &self.lengths[1..], sector);
        line("split ", &located(answer))
    }

    fn text_lines(&self) -> Vec<String> {
        let (answer, list) = handed_over(&self.bytes);
        let mut lines = vec![line("descriptor ", &described(answer))];
        for record in list.iter().chain(&self.records()) {
            lines.push(line("record ", &extent(record)));
        }
        lines
    }

    /// The records that a text comes to, or that the bytes hold.
    fn records(&self) -> Vec<Extent> {
        if self.asked == TEXT {
            return plain::descriptor(&self.bytes, plain::MOST_EXTENTS).1;
        }
        let mut input = Input::new(&self.bytes);
        (0..SEARCHED).map(|_| read_extent(&mut input)).collect()
    }
}

fn verdict_line(call: &str, v: Verdict) -> String {
    line(call, &[v.number, v.place, v.capacity, v.grain_size])
}

/// The collapse in every order of pairing neighbours, whose outputs on the way have 65,536 bytes: a refused one leaves none.
fn collapsed(layers: &[&[u8]], room: usize) -> Vec<Result<Vec<u8>, Refusal>> {
    match *layers {
        [one] => vec![plain::normal(one, room)],
        [lower, upper] => vec![plain::collapse(lower, upper, room)],
        _ => (1..layers.len())
            .flat_map(|at| {
                let pair = plain::collapse(layers[at - 1], layers[at], 65_536).unwrap_or_default();
                let rest = [&layers[..at - 1], &[&pair[..]], &layers[at + 1..]].concat();
                collapsed(&rest, room)
            })
            .collect(),
    }
}

fn read_extent(input: &mut Input) -> Extent {
    let [first, sectors, access, kind, name_at, name_length, offset] =
        [(); 7].map(|()| input.number());
    Extent {
        first,
        sectors,
        access,
        kind,
        name_at,
        name_length,
        offset,
    }
}
