//! SHA-256 of sectors and grains. The library names the places of their bytes; the bytes themselves come from the files, and
//! decide nothing.

use crate::failure::Failure;
use crate::given::Given;
use crate::layer::Layer;
use anhkhovet::{Source, SECTOR};
use sha2::{Digest, Sha256};
use std::ops::Range;
use std::sync::Arc;

/// As much is read at once.
const PART: u64 = 1 << 20;

pub type Hash = [u8; 32];

/// Bytes of a file, by its number among those that are open.
pub struct Place {
    pub file: usize,
    pub bytes: Range<u64>,
}

/// A grain, or some sectors of one, and where their bytes are.
pub struct Piece {
    pub first: u64,
    sectors: u64,
    content: Content,
}

enum Content {
    Zeros,
    /// The place of the sectors, which stand in a row.
    Open(Place),
    /// The place of the closed payload.
    Packed(Place),
}

impl Piece {
    /// The `sectors` from `first` on, all of one grain. A packed grain is one piece, from its first sector on.
    pub fn of(given: &mut Given, first: u64, sectors: u64) -> Result<Piece, Failure> {
        let found = given.locate(first)?;
        let (offset, content) = match found.source {
            Source::Absent | Source::Zero => (0, Content::Zeros),
            Source::Stored { .. } => (0, Content::Open(given.place(&found, first, sectors))),
            Source::Packed { offset, .. } => {
                (offset, Content::Packed(given.place(&found, first, 1)))
            }
        };
        Ok(Piece {
            first: first - offset,
            sectors,
            content,
        })
    }

    /// The same where it is known where they stand in the only file; absent ones do nowhere.
    pub fn known(first: u64, sectors: u64, bytes: Option<Range<u64>>) -> Piece {
        let place = bytes.map(|bytes| Place { file: 0, bytes });
        Piece {
            first,
            sectors,
            content: place.map_or(Content::Zeros, Content::Open),
        }
    }

    pub fn packed(&self) -> bool {
        matches!(self.content, Content::Packed(_))
    }

    /// How many bytes the digest of a line is of.
    pub fn digested(&self, grains: bool) -> u64 {
        match &self.content {
            Content::Packed(_) => self.length(),
            _ if grains => self.sectors * SECTOR,
            _ => SECTOR,
        }
    }

    /// The bytes that are read for it.
    pub fn length(&self) -> u64 {
        match &self.content {
            Content::Zeros => 0,
            Content::Open(place) | Content::Packed(place) => place.bytes.end - place.bytes.start,
        }
    }
}

/// Reads and hashes pieces, one after the other.
pub struct Hasher<'a> {
    files: &'a [Arc<Layer>],
    buffer: Vec<u8>,
    /// The hash of this many zero bytes: most of a sparse disk.
    zeros: (u64, Hash),
}

impl<'a> Hasher<'a> {
    pub fn new(files: &'a [Arc<Layer>]) -> Hasher<'a> {
        Hasher {
            files,
            buffer: Vec::new(),
            zeros: (0, Hash::default()),
        }
    }

    /// Hands over each line of a piece: its sector, and its hash.
    pub fn each(
        &mut self,
        piece: &Piece,
        grains: bool,
        mut take: impl FnMut(u64, &Hash),
    ) -> Result<(), Failure> {
        if grains || piece.packed() {
            take(piece.first, &self.whole(piece)?);
            return Ok(());
        }
        let sectors = piece.first..piece.first + piece.sectors;
        match &piece.content {
            Content::Open(place) => {
                let bytes = self.read(place.file, &place.bytes)?;
                for (sector, bytes) in sectors.zip(bytes.chunks(SECTOR as usize)) {
                    take(sector, &Sha256::digest(bytes).into());
                }
            }
            _ => {
                let hash = self.of_zeros(SECTOR);
                sectors.for_each(|sector| take(sector, &hash));
            }
        }
        Ok(())
    }

    /// The hash of all of a piece.
    pub fn whole(&mut self, piece: &Piece) -> Result<Hash, Failure> {
        match &piece.content {
            Content::Zeros => Ok(self.of_zeros(piece.sectors * SECTOR)),
            Content::Open(place) | Content::Packed(place) => self.of_part(place),
        }
    }

    /// Adds the bytes of a piece that is not packed to a hash of more.
    pub fn add(&mut self, piece: &Piece, hash: &mut Sha256) -> Result<(), Failure> {
        match &piece.content {
            Content::Zeros => {
                self.buffer.clear();
                self.buffer.resize((piece.sectors * SECTOR) as usize, 0);
                hash.update(&self.buffer);
            }
            Content::Open(place) | Content::Packed(place) => {
                hash.update(self.read(place.file, &place.bytes)?)
            }
        }
        Ok(())
    }

    fn of_zeros(&mut self, length: u64) -> Hash {
        if self.zeros.0 != length {
            self.zeros = (length, Sha256::digest(vec![0; length as usize]).into());
        }
        self.zeros.1
    }

    /// A payload may be as long as the file.
    fn of_part(&mut self, place: &Place) -> Result<Hash, Failure> {
        let mut hash = Sha256::new();
        let Range { start: mut at, end } = place.bytes;
        while at < end {
            let next = end.min(at + PART);
            hash.update(self.read(place.file, &(at..next))?);
            at = next;
        }
        Ok(hash.finalize().into())
    }

    fn read(&mut self, file: usize, part: &Range<u64>) -> Result<&[u8], Failure> {
        self.buffer.resize((part.end - part.start) as usize, 0);
        self.files[file].read(part.start, &mut self.buffer)?;
        Ok(&self.buffer)
    }
}

/// Two digits a byte.
pub fn digits(hash: &Hash) -> [u8; 64] {
    const DIGITS: &[u8; 16] = b"0123456789abcdef";
    let mut digits = [0; 64];
    for (pair, byte) in digits.chunks_exact_mut(2).zip(hash) {
        pair[0] = DIGITS[usize::from(byte >> 4)];
        pair[1] = DIGITS[usize::from(byte & 15)];
    }
    digits
}
