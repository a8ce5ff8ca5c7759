//! The raw disk as it comes together from the library's answers, compared with what `qemu-img convert` made: the file
//! NAME.raw.sha256 has the disk's length, then place, length and digest of each chunk that is not all zero.

use sha2::{Digest, Sha256};

const CHUNK: usize = 65_536;

pub struct Raw<'a> {
    name: &'a str,
    length: u64,
    /// Place, length and digest of the chunks that are still to come.
    wanted: std::iter::Peekable<std::str::Lines<'a>>,
    /// How many bytes came.
    at: u64,
    chunk: Vec<u8>,
    /// Whether a byte of the chunk may be other than zero.
    stored: bool,
}

impl<'a> Raw<'a> {
    pub fn new(name: &'a str, file: &'a str) -> Raw<'a> {
        let mut lines = file.lines();
        let length = lines.next().unwrap().parse().unwrap();
        Raw {
            name,
            length,
            wanted: lines.peekable(),
            at: 0,
            chunk: Vec::new(),
            stored: false,
        }
    }

    /// How many bytes came.
    pub fn at(&self) -> u64 {
        self.at
    }

    /// Takes the next sector; nothing is one of zeros.
    pub fn push(&mut self, sector: Option<&[u8]>) {
        self.stored |= sector.is_some();
        self.chunk.extend(sector.unwrap_or(&[0; 512]));
        self.at += 512;
        if self.chunk.len() == CHUNK || self.at == self.length {
            self.compare();
        }
    }

    fn compare(&mut self) {
        let start = self.at - self.chunk.len() as u64;
        if self.stored && self.chunk.iter().any(|byte| *byte != 0) {
            let digest = Sha256::digest(&self.chunk);
            let line = format!("{start} {} {digest:x}", self.chunk.len());
            assert_eq!(self.wanted.next(), Some(&line[..]), "{}", self.name);
        } else {
            let start = format!("{start} ");
            let named = self.wanted.next_if(|line| line.starts_with(&start));
            assert_eq!(named, None, "{}", self.name);
        }
        self.chunk.clear();
        self.stored = false;
    }

    /// The disk ends here.
    pub fn finish(mut self) {
        let rest = (self.at, self.wanted.next());
        assert_eq!(rest, (self.length, None), "{}", self.name);
    }
}
