//! Which sectors of the disk read otherwise once an image is mended. What an absent grain would get from a parent is not known
//! here, so it counts as zeros.

use crate::changes::{Changed, Entry};
use crate::cores::in_order;
use crate::failure::Failure;
use crate::layer::Layer;
use crate::mended::Mended;
use crate::progress::Progress;
use anhkhovet::{Side, Source, SECTOR};
use serde_json::{json, Value};
use std::ops::Range;

/// As many changes are worked on at once.
const BATCH: usize = 16;

/// As much of a payload is read at once.
const PART: u64 = 1 << 20;

const BYTES: usize = SECTOR as usize;

/// How sectors read otherwise.
#[derive(Clone, Copy, Debug, PartialEq, Eq)]
pub enum How {
    /// They have other bytes.
    Bytes,
    /// The closed payloads are not the same. What is in them is not known here.
    Packed,
    /// They were refused before.
    Refused,
}

/// Sectors in a row.
pub struct Run {
    pub first: u64,
    pub sectors: u64,
    pub how: How,
}

impl How {
    fn word(self) -> &'static str {
        match self {
            How::Bytes => "bytes",
            How::Packed => "packed",
            How::Refused => "refused",
        }
    }

    fn remark(self) -> &'static str {
        match self {
            How::Bytes => "",
            How::Packed => " packed, so not compared",
            How::Refused => " refused before",
        }
    }
}

/// What stands above the lines.
pub const TITLES: &str = "       first      sectors    byte offset          bytes\n";

impl Run {
    pub fn line(&self) -> String {
        format!(
            "{:>12} {:>12} {:>14} {:>14}{}\n",
            self.first,
            self.sectors,
            self.first * SECTOR,
            self.sectors * SECTOR,
            self.how.remark()
        )
    }

    pub fn object(&self) -> Value {
        json!({
            "first": self.first,
            "sectors": self.sectors,
            "byte_offset": self.first * SECTOR,
            "length": self.sectors * SECTOR,
            "kind": self.how.word(),
        })
    }
}

/// What reads otherwise, in order.
#[derive(Default)]
pub struct Differing {
    pub runs: Vec<Run>,
    /// A grain is absent before or after.
    pub absent: bool,
}

impl Differing {
    /// The primary tables serve the disk, so it is nothing where they are the good ones.
    pub fn of(mended: &mut Mended) -> Result<Differing, Failure> {
        let mut all = Differing::default();
        if mended.good == Side::Primary {
            return Ok(all);
        }
        let progress = Progress::start("comparing", mended.count);
        let file = mended.image.files().remove(0);
        let mut changes = mended.changes();
        let mut done = 0;
        in_order(
            || {
                let batch = changes.by_ref().take(BATCH);
                let batch = batch.collect::<Result<Vec<Changed>, Failure>>()?;
                done += batch.len() as u64;
                progress.at(done);
                Ok(Some(batch).filter(|batch| !batch.is_empty()))
            },
            |batch| {
                let mut found = Differing::default();
                let mut batch = batch.iter();
                batch.try_for_each(|changed| found.compare(&file, changed))?;
                Ok(found)
            },
            |found| {
                let found: Differing = found?;
                all.absent |= found.absent;
                found.runs.into_iter().for_each(|run| all.add(run));
                Ok(())
            },
        )?;
        Ok(all)
    }

    /// What goes on where the last run ends is part of it.
    fn add(&mut self, next: Run) {
        match self.runs.last_mut() {
            Some(run) if run.how == next.how && run.first + run.sectors == next.first => {
                run.sectors += next.sectors
            }
            _ => self.runs.push(next),
        }
    }

    fn compare(&mut self, file: &Layer, changed: &Changed) -> Result<(), Failure> {
        let (old, new) = (&changed.old, &changed.new);
        self.absent |= [old, new]
            .iter()
            .any(|entry| entry.source == Ok(Source::Absent));
        match (old.source, new.source) {
            (Err(_), _) | (_, Err(_)) => self.add(changed.run(How::Refused)),
            (Ok(Source::Packed { .. }), _) | (_, Ok(Source::Packed { .. })) => {
                if !same(file, &old.bytes, &new.bytes)? {
                    self.add(changed.run(How::Packed));
                }
            }
            _ => self.compare_sectors(file, changed)?,
        }
        Ok(())
    }

    fn compare_sectors(&mut self, file: &Layer, changed: &Changed) -> Result<(), Failure> {
        let before = open(file, &changed.old, changed.sectors)?;
        let after = open(file, &changed.new, changed.sectors)?;
        let sectors = before.chunks(BYTES).zip(after.chunks(BYTES));
        let sectors = (changed.first..).zip(sectors);
        for (first, _) in sectors.filter(|(_, (before, after))| before != after) {
            let (sectors, how) = (1, How::Bytes);
            self.add(Run {
                first,
                sectors,
                how,
            });
        }
        Ok(())
    }
}

impl Changed {
    /// All sectors of the grain.
    fn run(&self, how: How) -> Run {
        Run {
            first: self.first,
            sectors: self.sectors,
            how,
        }
    }
}

/// The bytes of a grain that is not packed. Holes are not read.
fn open(file: &Layer, entry: &Entry, sectors: u64) -> Result<Vec<u8>, Failure> {
    let mut bytes = vec![0; (sectors * SECTOR) as usize];
    if !entry.bytes.is_empty() {
        file.copy_data(entry.bytes.start, &mut bytes)?;
    }
    Ok(bytes)
}

/// Whether two parts of the file have the same bytes: payloads, which may be as long as the file.
fn same(file: &Layer, one: &Range<u64>, another: &Range<u64>) -> Result<bool, Failure> {
    let long = one.end - one.start;
    if long != another.end - another.start {
        return Ok(false);
    }
    let mut at = 0;
    while at < long {
        let next = long.min(at + PART);
        let part = |whole: &Range<u64>| file.part(whole.start + at..whole.start + next);
        if part(one)? != part(another)? {
            return Ok(false);
        }
        at = next;
    }
    Ok(true)
}
