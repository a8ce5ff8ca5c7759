//! The input of the program `cases`, and what it prints.
//!
//! A case is five numbers, what is asked and the numbers of sectors, lengths, bytes and room; then the sectors, the lengths
//! and the bytes.

mod answer;
mod choose;
mod kinds;
pub mod layers;
mod record;

use crate::input::Input;
pub use choose::input;

/// The check, the header, the lookup and the grain reader for each sector, and the normal form.
const IMAGE: u64 = 0;
/// The chain lookup for each sector.
const CHAIN: u64 = 1;
/// The collapse of one to four layers, in each order of pairing neighbours.
const COLLAPSE: u64 = 2;
/// The extents of a text, in a list of four records and all of them, and the search for each sector in them.
const TEXT: u64 = 3;
/// The search for each sector in a list of `SEARCHED` records, which the bytes hold. The next number asks for the lookup and
/// the grain reader alone.
const FIND: u64 = 4;

/// The frame, in a list of as many words as the room says, `MOST_WORDS` at most.
const FRAME: u64 = 6;
/// The survey, with as many words for rows as the room says, `MOST_ROWS` at most, and `TALLY` words. A room of `SHORT` more is
/// one with a tally that is a word too short.
const SURVEY: u64 = 7;
/// The lookup of each sector in a disk of several files: the first length is that of the text, which the files follow.
const SPLIT: u64 = 8;
/// The check in a list of as many words as the room says, `MOST_WORDS` at most.
const CHECK_IN: u64 = 9;
/// Mending of a copy of the bytes, whose length is the room. The first length names the good side, and the list has as many words
/// as the second says, `MOST_WORDS` at most.
const MEND: u64 = 10;
/// Both moves, each into an output whose length is the room.
const MOVE: u64 = 11;
/// The lab profile.
const PROFILE: u64 = 12;
/// Closing, into an output whose length is the room.
const CLOSE: u64 = 13;
/// The lookup's steps for each sector.
const STEPS: u64 = 14;

const SEARCHED: usize = 32;
const MOST_WORDS: usize = 96;
const MOST_ROWS: usize = 128;
const TALLY: usize = 66;
const SHORT: u64 = 1000;
const SHORT_TALLY: usize = 62;

#[derive(Clone, Debug, Default, PartialEq, Eq)]
pub struct Case {
    asked: u64,
    sectors: Vec<u64>,
    lengths: Vec<u64>,
    bytes: Vec<u8>,
    /// How long a lent output or list is.
    room: u64,
}

impl Case {
    fn to_bytes(&self) -> Vec<u8> {
        let counts = [self.sectors.len(), self.lengths.len(), self.bytes.len()];
        let mut numbers = vec![self.asked];
        numbers.extend(counts.map(|count| count as u64));
        numbers.push(self.room);
        numbers.extend(&self.sectors);
        numbers.extend(&self.lengths);
        let mut bytes: Vec<u8> = numbers.iter().flat_map(|n| n.to_le_bytes()).collect();
        bytes.extend(&self.bytes);
        bytes
    }

    fn read(input: &mut Input) -> Case {
        let [asked, sectors, lengths, bytes, room] = [(); 5].map(|()| input.number());
        Case {
            asked,
            sectors: input.numbers(sectors),
            lengths: input.numbers(lengths),
            bytes: input.bytes(bytes).to_vec(),
            room,
        }
    }
}

/// What the program prints.
pub fn output(input: &[u8]) -> String {
    let mut input = Input::new(input);
    let mut out = String::new();
    while !input.is_empty() {
        for line in Case::read(&mut input).lines() {
            out += &line;
            out += "\n";
        }
    }
    out
}
