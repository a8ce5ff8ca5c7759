//! `read --count`: the bytes of sectors in a row, as they are on the disk.

use crate::cli::Target;
use crate::failure::Failure;
use crate::given::Given;
use crate::names::{self, hex};
use crate::output::Output;
use crate::print::{self, Printer};
use crate::runs::{runs, Run};
use crate::stretch::Stretch;
use anhkhovet::SECTOR;
use serde_json::json;
use std::ops::Range;
use std::path::PathBuf;

/// As many zeros are told at once: whole sectors.
const PART: u64 = 1 << 20;

struct Row {
    given: Given,
    sectors: Range<u64>,
    runs: Vec<Run>,
}

impl Row {
    fn of(mut given: Given, stretch: Stretch) -> Result<Row, Failure> {
        let cut = given.grains()?;
        let sectors = stretch.on(&mut given, cut.capacity())?;
        let runs = runs(&mut given, &cut, sectors.clone())?;
        Ok(Row {
            given,
            sectors,
            runs,
        })
    }

    /// Hands over the bytes, whole sectors at a time, each read before the files were looked at and found unchanged.
    fn each(&self, mut take: impl FnMut(&[u8]) -> Result<(), Failure>) -> Result<(), Failure> {
        let mut at = self.sectors.start * SECTOR;
        for run in &self.runs {
            zeros(at..run.at, &mut take)?;
            self.given
                .each_part(run.file, run.bytes.clone(), &mut take)?;
            at = run.end();
        }
        zeros(at..self.sectors.end * SECTOR, &mut take)
    }

    fn print(&self) -> Result<(), Failure> {
        let mut printer = Printer::new();
        self.each(|bytes| printer.bytes(bytes))?;
        printer.done()
    }

    /// The bytes sector by sector, or the file that they were written to.
    fn tell(&self, target: Option<&Target>) -> Result<(), Failure> {
        print::members(|object| {
            object.member("first", &self.sectors.start)?;
            let count = self.sectors.end - self.sectors.start;
            object.member("count", &count)?;
            object.member("length", &(count * SECTOR))?;
            self.given.tell_files(object)?;
            if let Some(target) = target {
                return names::member(object, "output", &target.path);
            }
            object.list("sectors", |take| {
                let mut sector = self.sectors.start;
                self.each(|bytes| {
                    bytes.chunks(SECTOR as usize).try_for_each(|bytes| {
                        let told = json!({ "sector": sector, "bytes": hex(bytes) });
                        sector += 1;
                        take(&told)
                    })
                })
            })
        })
    }
}

/// Zeros for a part of the disk.
fn zeros(
    part: Range<u64>,
    take: &mut impl FnMut(&[u8]) -> Result<(), Failure>,
) -> Result<(), Failure> {
    let mut left = part.end - part.start;
    let zeros = vec![0; left.min(PART) as usize];
    while left > 0 {
        let now = left.min(PART);
        take(&zeros[..now as usize])?;
        left -= now;
    }
    Ok(())
}

pub fn read(
    paths: &[PathBuf],
    stretch: Stretch,
    target: Option<Target>,
    json: bool,
) -> Result<(), Failure> {
    let given = Given::over(paths, stretch)?;
    let output = match &target {
        Some(target) => Some(Output::create(target, &given.paths())?),
        None => None,
    };
    let row = Row::of(given, stretch)?;
    if let Some(mut output) = output {
        row.each(|bytes| output.write(bytes))?;
        output.finish()?;
    }
    if json {
        row.tell(target.as_ref())
    } else if target.is_none() {
        row.print()
    } else {
        Ok(())
    }
}
