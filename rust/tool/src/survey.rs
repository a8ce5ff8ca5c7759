//! `survey`: how full images are, each by itself and all together. Refused images are part of the answer.

use crate::cores::in_order;
use crate::failure::{Failure, Status};
use crate::hint::hinted;
use crate::judged::Judged;
use crate::layer::Layer;
use crate::names::put_name;
use crate::print;
use crate::progress::Progress;
use crate::streams;
use crate::table::Table;
use anhkhovet::{Counts, Disk, Refusal};
use serde_json::{json, Value};
use std::collections::BTreeMap;
use std::path::{Path, PathBuf};

/// What a file has, or why that is not known.
pub type Row = Judged<(Disk, Counts)>;

/// What all files have together.
#[derive(Default)]
pub struct Totals {
    pub files: u64,
    pub accepted: u64,
    /// Sectors of the accepted images.
    pub capacity: u64,
    pub counts: Counts,
    /// Refused images, by their number.
    pub tally: BTreeMap<u64, u64>,
    pub unread: u64,
}

impl Totals {
    fn add(&mut self, row: &Row) {
        self.files += 1;
        match &row.verdict {
            Ok((disk, counts)) => {
                self.accepted += 1;
                self.capacity += disk.capacity;
                self.counts.stored += counts.stored;
                self.counts.zero += counts.zero;
                self.counts.absent += counts.absent;
                self.counts.packed += counts.packed;
            }
            Err(Failure::Refused(refusal)) => {
                *self.tally.entry(refusal.why.number).or_default() += 1
            }
            Err(_) => self.unread += 1,
        }
    }

    fn object(&self) -> Value {
        let mut object = numbers(self.capacity, &self.counts);
        object["images"] = json!(self.accepted);
        object
    }

    fn tally(&self) -> Vec<Value> {
        let tallied = |(&number, &images): (&u64, &u64)| {
            let sentence = Refusal { number, place: 0 }.sentence();
            json!({ "number": number, "images": images, "sentence": sentence })
        };
        self.tally.iter().map(tallied).collect()
    }
}

fn numbers(capacity: u64, counts: &Counts) -> Value {
    json!({
        "capacity": capacity,
        "stored": counts.stored,
        "zero": counts.zero,
        "absent": counts.absent,
        "packed": counts.packed,
    })
}

fn object(path: &Path, row: &Row) -> Value {
    let mut object = row.object(|(disk, counts)| {
        let mut accepted = numbers(disk.capacity, counts);
        accepted["grain_size"] = json!(disk.grain_size);
        accepted
    });
    put_name(&mut object, "file", path);
    object
}

/// The library's survey of one image.
pub fn counted(image: &[u8]) -> Result<(Disk, Counts), Refusal> {
    let said = anhkhovet::survey(image, &[image.len() as u64])?;
    said.rows.into_iter().try_for_each(|row| row.map(drop))?;
    Ok((anhkhovet::header(image)?.disk, said.totals))
}

fn one(path: &Path) -> Row {
    let file = Layer::open(path);
    let mut row = file.map_or_else(Row::from, |file| Row::of(file, counted));
    row.verdict = row.verdict.map_err(hinted);
    row
}

/// Each file by itself, on all cores: no more are open at a time. Rows are taken in the order of the files.
fn each(
    paths: &[PathBuf],
    progress: Option<Progress>,
    mut take: impl FnMut(&Path, Row) -> Result<(), Failure>,
) -> Result<Totals, Failure> {
    let mut totals = Totals::default();
    let mut left = paths.iter();
    in_order(
        || Ok(left.next()),
        |path| (path, one(path)),
        |(path, row)| {
            totals.add(&row);
            if let Some(progress) = &progress {
                progress.at(totals.files);
            }
            take(path, row)
        },
    )?;
    Ok(totals)
}

fn objects(paths: &[PathBuf], progress: Option<Progress>) -> Result<Totals, Failure> {
    let mut totals = Totals::default();
    print::members(|all| {
        all.list("files", |take| {
            totals = each(paths, progress, |path, row| take(&object(path, &row)))?;
            Ok(())
        })?;
        all.member("totals", &totals.object())?;
        all.member("tally", &totals.tally())?;
        all.member("unread", &totals.unread)
    })?;
    Ok(totals)
}

fn table(paths: &[PathBuf], progress: Option<Progress>) -> Result<Totals, Failure> {
    let mut table = Table::new();
    let totals = each(paths, progress, |path, row| {
        table.image(path, &row);
        Ok(())
    })?;
    table.print(&totals)?;
    Ok(totals)
}

pub fn survey(paths: &[PathBuf], json: bool) -> Result<(), Failure> {
    let start = || Progress::start("surveying", paths.len() as u64);
    let totals = if json {
        // A bar would stand between objects that are printed meanwhile.
        objects(paths, (!streams::output_is_terminal()).then(start))?
    } else {
        table(paths, Some(start()))?
    };
    match totals.unread {
        0 => Ok(()),
        _ => Err(Failure::Told(Status::Failed)),
    }
}
