//! `digest`: SHA-256 of each sector or grain, told as a list of lines.

use crate::cores::in_order;
use crate::failure::Failure;
use crate::files::same;
use crate::formats::{Format, Name};
use crate::given::Given;
use crate::grains::Grains;
use crate::hash::{digits, Hash, Hasher, Piece};
use crate::print::{self, Printer};
use crate::progress::Progress;
use crate::streams;
use crate::stretch::Stretch;
use serde_json::{json, Value};
use std::ops::Range;
use std::path::PathBuf;

/// As many lines and bytes of grains are worked on at once; then the files are looked at, and the lines are printed.
const LINES: u64 = 1 << 11;
const BYTES: u64 = 1 << 20;

/// Which digests, and how they are told.
pub struct Asked {
    /// Whether a grain has one digest.
    pub grains: bool,
    /// What has a sector among these has a line.
    pub stretch: Stretch,
    pub format: Format,
}

/// One line of the list. A packed grain has one, at its first sector, of its closed payload.
pub struct Line {
    pub sector: u64,
    pub digest: String,
    pub packed: bool,
}

impl Line {
    fn of(piece: &Piece, sector: u64, hash: &Hash) -> Line {
        Line {
            sector,
            digest: digits(hash)
                .iter()
                .map(|&digit| char::from(digit))
                .collect(),
            packed: piece.packed(),
        }
    }

    fn object(&self) -> Value {
        let mut object = json!({ "sector": self.sector, "digest": self.digest });
        if self.packed {
            object["packed"] = json!(true);
        }
        object
    }
}

/// Digests of a disk's sectors.
struct Digests<'a> {
    given: &'a mut Given,
    cut: &'a Grains,
    grains: bool,
    range: Range<u64>,
}

impl Digests<'_> {
    /// The next grains from `first` on, which is moved past them; nothing at the end.
    fn pieces(&mut self, first: &mut u64) -> Result<Option<Vec<Piece>>, Failure> {
        let (mut pieces, mut lines, mut bytes) = (Vec::new(), 0, 0);
        while *first < self.range.end && lines < LINES && bytes < BYTES {
            let grain = self.cut.around(*first);
            let part = if self.grains {
                grain.clone()
            } else {
                *first..grain.end.min(self.range.end)
            };
            let sectors = part.end - part.start;
            let piece = Piece::of(self.given, part.start, sectors)?;
            lines += if self.grains { 1 } else { sectors };
            bytes += piece.length();
            pieces.push(piece);
            *first = grain.end;
        }
        Ok(Some(pieces).filter(|pieces| !pieces.is_empty()))
    }

    /// All lines in order, made ready by `work` on all cores and taken once the files are found unchanged.
    fn all<D: Send>(
        &mut self,
        work: impl Fn(&mut Hasher, &[Piece]) -> Result<D, Failure> + Sync,
        mut take: impl FnMut(D) -> Result<(), Failure>,
    ) -> Result<(), Failure> {
        let files = self.given.files();
        // Lines on a terminal are progress enough, and a bar would stand between them.
        let progress = if streams::output_is_terminal() {
            None
        } else {
            let sectors = self.range.end - self.range.start;
            Some(Progress::start("digesting", sectors))
        };
        let mut first = self.range.start;
        in_order(
            || {
                if let Some(progress) = &progress {
                    progress.at(first - self.range.start);
                }
                self.pieces(&mut first)
            },
            |pieces| work(&mut Hasher::new(&files), &pieces),
            |done| {
                let done = done?;
                same(&files)?;
                take(done)
            },
        )
    }

    /// The lines as text.
    fn print(&mut self, format: Format, printer: &mut Printer) -> Result<(), Failure> {
        let (grains, size) = (self.grains, self.cut.size());
        let name = |piece: &Piece, sector| match (format, size) {
            _ if piece.packed() => Name::Packed(sector),
            (Format::Ours, _) => Name::Plain(sector),
            (_, Some(size)) if grains => Name::Grain(sector / size),
            _ => Name::Sector(sector),
        };
        let text = |hasher: &mut Hasher, pieces: &[Piece]| {
            let mut text = Vec::new();
            for piece in pieces {
                let bytes = piece.digested(grains);
                hasher.each(piece, grains, |sector, hash| {
                    format.put(&mut text, name(piece, sector), bytes, hash);
                })?;
            }
            Ok(text)
        };
        printer.text(format.heading())?;
        self.all(text, |text| printer.bytes(&text))
    }

    /// The lines as objects, handed over one by one.
    fn objects(
        &mut self,
        mut take: impl FnMut(&Value) -> Result<(), Failure>,
    ) -> Result<(), Failure> {
        let grains = self.grains;
        let lines = |hasher: &mut Hasher, pieces: &[Piece]| {
            let mut lines = Vec::new();
            for piece in pieces {
                hasher.each(piece, grains, |sector, hash| {
                    lines.push(Line::of(piece, sector, hash))
                })?;
            }
            Ok(lines)
        };
        self.all(lines, |lines| {
            lines.iter().try_for_each(|line| take(&line.object()))
        })
    }
}

pub fn print(paths: &[PathBuf], asked: &Asked, json: bool) -> Result<(), Failure> {
    let mut given = Given::open(paths)?;
    let grains = asked.grains;
    let cut = &given.cut(grains)?;
    let range = asked.stretch.on(&mut given, cut.capacity())?;
    if json {
        return print::members(|object| {
            object.member("capacity", &cut.capacity())?;
            given.tell_files(object)?;
            object.member("grain_size", &cut.size())?;
            object.member("of", if grains { "grain" } else { "sector" })?;
            let mut digests = Digests {
                given: &mut given,
                cut,
                grains,
                range,
            };
            object.list("digests", |take| digests.objects(take))
        });
    }
    let mut digests = Digests {
        given: &mut given,
        cut,
        grains,
        range,
    };
    let mut printer = Printer::new();
    digests.print(asked.format, &mut printer)?;
    printer.done()
}
