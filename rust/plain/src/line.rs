//! The parts of a descriptor's line: trimmed pieces that know their place, words, numbers, and the extent line.

use crate::answers::Extent;

/// A piece of the text and the place of its first byte.
#[derive(Clone, Copy)]
pub struct Piece<'a> {
    pub at: usize,
    pub bytes: &'a [u8],
}

fn is_blank(byte: u8) -> bool {
    byte == b' ' || byte == b'\t'
}

fn is_trimmed(byte: u8) -> bool {
    is_blank(byte) || byte == b'\r'
}

impl<'a> Piece<'a> {
    /// Bytes `from` to before `to` of this piece.
    fn part(self, from: usize, to: usize) -> Piece<'a> {
        Piece {
            at: self.at + from,
            bytes: &self.bytes[from..to],
        }
    }

    fn from(self, from: usize) -> Piece<'a> {
        self.part(from, self.bytes.len())
    }

    /// Without spaces, tabs and 0d at both ends.
    pub fn trimmed(self) -> Piece<'a> {
        let kept = |byte: &u8| !is_trimmed(*byte);
        match self.bytes.iter().position(kept) {
            None => self.from(self.bytes.len()),
            Some(first) => {
                let last = self.bytes.iter().rposition(kept).unwrap_or(first);
                self.part(first, last + 1)
            }
        }
    }

    /// Whether this is a fixed word, ASCII case ignored.
    pub fn is(self, word: &str) -> bool {
        self.bytes.eq_ignore_ascii_case(word.as_bytes())
    }

    /// What stands before and after the first `byte`.
    pub fn split_at(self, byte: u8) -> Option<(Piece<'a>, Piece<'a>)> {
        let at = self.bytes.iter().position(|other| *other == byte)?;
        Some((self.part(0, at), self.from(at + 1)))
    }

    /// What stands before the first space or tab, and the rest, which is empty or starts with it.
    pub fn word(self) -> (Piece<'a>, Piece<'a>) {
        let end = self
            .bytes
            .iter()
            .position(|byte| is_blank(*byte))
            .unwrap_or(self.bytes.len());
        (self.part(0, end), self.from(end))
    }

    /// The rest after one or more spaces or tabs; nothing where there is none.
    fn after_blanks(self) -> Option<Piece<'a>> {
        let blanks = self
            .bytes
            .iter()
            .position(|byte| !is_blank(*byte))
            .unwrap_or(self.bytes.len());
        if blanks == 0 {
            return None;
        }
        Some(self.from(blanks))
    }

    /// The value of a decimal of 1 to 10 digits within `least` to `most`.
    pub fn decimal(self, least: u64, most: u64) -> Option<u64> {
        let value = self.digits(10, 10)?;
        if value < least || value > most {
            return None;
        }
        Some(value)
    }

    /// The value of 1 to `longest` digits of `base`.
    pub fn digits(self, base: u32, longest: usize) -> Option<u64> {
        if self.bytes.is_empty() || self.bytes.len() > longest {
            return None;
        }
        let mut value = 0;
        for byte in self.bytes {
            let digit = char::from(*byte).to_digit(base)?;
            value = value * u64::from(base) + u64::from(digit);
        }
        Some(value)
    }

    /// What stands between an opening quote at the start and the next quote, and the rest after that.
    pub fn quoted(self) -> Option<(Piece<'a>, Piece<'a>)> {
        if self.bytes.first() != Some(&b'"') {
            return None;
        }
        self.from(1).split_at(b'"')
    }
}

/// The access of a line whose first word makes it an extent line.
pub fn access(line: Piece) -> Option<u64> {
    let (word, _) = line.word();
    let names = ["RW", "RDONLY", "NOACCESS"];
    let index = names.iter().position(|name| word.is(name))?;
    Some(index as u64 + 1)
}

/// `Extent::access` of an extent that is not served.
pub const NOACCESS: u64 = 3;

/// `Extent::kind`, by the words of document 01.
pub const FLAT: u64 = 1;
pub const VMFS: u64 = 2;
pub const SPARSE: u64 = 3;
pub const VMFSSPARSE: u64 = 4;
pub const ZERO: u64 = 5;

fn kind(word: Piece) -> Option<u64> {
    let names = [
        ("FLAT", FLAT),
        ("VMFS", VMFS),
        ("SPARSE", SPARSE),
        ("VMFSSPARSE", VMFSSPARSE),
        ("ZERO", ZERO),
    ];
    let found = names.iter().find(|(name, _)| word.is(name))?;
    Some(found.1)
}

/// The record of an extent line, with 0 as its first virtual sector; nothing where the line is at fault.
pub fn extent(line: Piece, access: u64) -> Option<Extent> {
    let (_, rest) = line.word();
    let (word, rest) = rest.after_blanks()?.word();
    let sectors = word.decimal(1, 1 << 31)?;
    let (word, rest) = rest.after_blanks()?.word();
    let mut extent = Extent {
        sectors,
        access,
        kind: kind(word)?,
        ..Extent::default()
    };
    let mut rest = rest;
    if extent.kind != ZERO {
        let (name, after) = rest.after_blanks()?.quoted()?;
        if name.bytes.is_empty() || name.bytes.len() > 255 {
            return None;
        }
        extent.name_at = name.at as u64;
        extent.name_length = name.bytes.len() as u64;
        rest = after;
    }
    let needs_offset = extent.kind == FLAT;
    let takes_offset = needs_offset || extent.kind == VMFS;
    if needs_offset || (takes_offset && !rest.bytes.is_empty()) {
        let (word, after) = rest.after_blanks()?.word();
        extent.offset = word.decimal(0, (1 << 32) - 1)?;
        rest = after;
    }
    // The line is trimmed, so nothing, not even a blank, may follow the last field.
    if rest.bytes.is_empty() {
        Some(extent)
    } else {
        None
    }
}
