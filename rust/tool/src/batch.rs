//! The lines of a list in batches, with what the image has for them.

use crate::difference::Fault;
use crate::failure::Failure;
use crate::formats::{Line, Name};
use crate::given::Given;
use crate::grains::Grains;
use crate::hash::{Hash, Hasher, Piece};
use crate::lines::{Content, Lines};
use anhkhovet::SECTOR;
use std::ops::Range;
use std::path::Path;

/// As many lines and bytes of sectors are worked on at once.
const LINES: usize = 1 << 11;
const BYTES: u64 = 1 << 20;

/// A line by its number: what it has, or its sector and why it does not hold whatever the image has.
pub struct Item {
    pub line: u64,
    pub listed: Result<Listed, (Option<u64>, Fault)>,
}

/// What a line says: the digest of a sector or grain, or of the packed grain that begins there.
pub struct Listed {
    pub sector: u64,
    pub hash: Hash,
    pub packed: bool,
    /// How many bytes it is of, where the line tells.
    pub bytes: Option<u64>,
}

/// What the image has at a sector: the first sector of its digest, whether its grain is packed, the digest and its bytes.
#[derive(Clone, Copy)]
pub struct Found {
    pub first: u64,
    pub packed: bool,
    pub hash: Hash,
    pub bytes: u64,
}

#[derive(Default)]
pub struct Batch {
    pub items: Vec<Item>,
    /// Lines in a row that name sectors of one grain in a row: where these are, and how many lines.
    pieces: Vec<(Piece, usize)>,
}

/// Makes batches.
pub struct Reader<'a> {
    given: &'a mut Given,
    cut: &'a Grains,
    grains: bool,
    /// What is compared: lines that name other sectors of the disk are passed over.
    range: Range<u64>,
    lines: Lines,
    ended: bool,
}

impl<'a> Reader<'a> {
    pub fn open(
        given: &'a mut Given,
        cut: &'a Grains,
        grains: bool,
        range: Range<u64>,
        list: &Path,
    ) -> Result<Reader<'a>, Failure> {
        Ok(Reader {
            given,
            cut,
            grains,
            range,
            lines: Lines::open(list)?,
            ended: false,
        })
    }

    pub fn next(&mut self) -> Result<Option<Batch>, Failure> {
        let mut batch = Batch::default();
        let mut bytes = 0;
        while !self.ended && batch.items.len() < LINES && bytes < BYTES {
            let content = match self.lines.next()? {
                Some(content) => content,
                None => break,
            };
            self.ended = matches!(content, Content::Binary);
            let listed = self.listed(content);
            if matches!(&listed, Ok(line) if !self.compared(line)) {
                continue;
            }
            bytes += listed.as_ref().map_or(0, |line| self.length(line));
            let line = self.lines.number;
            batch.items.push(Item { line, listed });
        }
        for (first, sectors, lines) in self.rows(&batch.items) {
            let piece = Piece::of(self.given, first, sectors)?;
            batch.pieces.push((piece, lines));
        }
        Ok(Some(batch).filter(|batch| !batch.items.is_empty()))
    }

    fn listed(&self, content: Content) -> Result<Listed, (Option<u64>, Fault)> {
        let line = match content {
            Content::Malformed => return Err((None, Fault::Form)),
            Content::Binary => return Err((None, Fault::Text)),
            Content::Entry(line) => line,
        };
        let (sector, packed) = self.named(&line).map_err(|fault| (None, fault))?;
        let capacity = self.cut.capacity();
        if sector >= capacity {
            return Err((Some(sector), Fault::Past(capacity - 1)));
        }
        match self.cut.around(sector).start {
            first if self.grains && sector != first => Err((Some(sector), Fault::Inside(first))),
            _ => Ok(Listed {
                sector,
                hash: line.hash,
                packed,
                bytes: line.bytes,
            }),
        }
    }

    /// The sector that a line names, and whether its grain is packed.
    fn named(&self, line: &Line) -> Result<(u64, bool), Fault> {
        let compared = if self.grains {
            "grains are"
        } else {
            "sectors are"
        };
        match (line.name, self.cut.size()) {
            (Name::Plain(sector), _) => Ok((sector, false)),
            (Name::Packed(sector), _) => Ok((sector, true)),
            (Name::Sector(sector), _) if !self.grains => Ok((sector, false)),
            (Name::Grain(grain), Some(size)) if self.grains => {
                Ok((grain.saturating_mul(size), false))
            }
            (Name::Sector(_), _) => Err(Fault::Unit("a sector", compared)),
            (Name::Grain(_), _) => Err(Fault::Unit("a grain", compared)),
            (Name::Disk, _) => Err(Fault::Unit("the whole disk", compared)),
            (Name::Other, _) => Err(Fault::Unit("another file", compared)),
        }
    }

    /// Whether what a line names has a sector among those that are compared.
    fn compared(&self, line: &Listed) -> bool {
        let named = if self.grains || line.packed {
            self.cut.around(line.sector)
        } else {
            line.sector..line.sector + 1
        };
        named.start < self.range.end && self.range.start < named.end
    }

    /// The sectors of a line.
    fn sectors(&self, line: &Listed) -> u64 {
        if self.grains {
            self.cut.around(line.sector).end - line.sector
        } else {
            1
        }
    }

    fn length(&self, line: &Listed) -> u64 {
        SECTOR * self.sectors(line)
    }

    /// First sector, sectors and lines of what stands in a row.
    fn rows(&self, items: &[Item]) -> Vec<(u64, u64, usize)> {
        let mut rows: Vec<(u64, u64, usize)> = Vec::new();
        for line in items.iter().filter_map(|item| item.listed.as_ref().ok()) {
            let sector = line.sector;
            match rows.last_mut() {
                Some((first, sectors, lines))
                    if sector == *first + *sectors && self.cut.around(*first).contains(&sector) =>
                {
                    *sectors += 1;
                    *lines += 1;
                }
                _ => rows.push((sector, self.sectors(line), 1)),
            }
        }
        rows
    }
}

impl Batch {
    /// What the image has for each line that has one.
    pub fn found(&self, hasher: &mut Hasher, grains: bool) -> Result<Vec<Found>, Failure> {
        let mut all = Vec::with_capacity(self.items.len());
        for (piece, lines) in &self.pieces {
            let packed = piece.packed();
            let bytes = piece.digested(grains);
            hasher.each(piece, grains, |sector, hash| {
                let found = Found {
                    first: sector,
                    packed,
                    hash: *hash,
                    bytes,
                };
                // The digest of a packed grain is that of all of its sectors.
                let times = if packed { *lines } else { 1 };
                all.extend(std::iter::repeat(found).take(times));
            })?;
        }
        Ok(all)
    }
}
