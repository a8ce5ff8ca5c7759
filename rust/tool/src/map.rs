//! `map`: the runs of sectors that have one source. All sectors of a grain have one, so one lookup a grain is enough.

use crate::failure::Failure;
use crate::given::Given;
use crate::grains::Grains;
use crate::names::name;
use crate::print::{self, Printer};
use crate::progress::Progress;
use crate::source::{file_sector, word};
use anhkhovet::{Located, Source, SECTOR};
use serde_json::{json, Value};
use std::path::PathBuf;

/// Sectors in a row from one layer or extent, of one kind and, where stored, in a row in the file too.
struct Run {
    first: u64,
    sectors: u64,
    layer: u64,
    source: Source,
}

impl Run {
    /// Whether a grain from there goes on where this run ends.
    fn goes_on(&self, next: &Located) -> bool {
        self.layer == next.layer
            && match (self.source, next.source) {
                (Source::Absent, Source::Absent) | (Source::Zero, Source::Zero) => true,
                (Source::Stored { sector: at }, Source::Stored { sector: next }) => {
                    at + self.sectors == next
                }
                // Each packed grain is a source of its own.
                _ => false,
            }
    }

    /// `holder` says what the layer is called.
    fn object(&self, holder: &str) -> Value {
        let mut object = json!({
            "first": self.first,
            "sectors": self.sectors,
            "kind": word(self.source),
        });
        object[holder] = json!(self.layer);
        if let Some(at) = file_sector(self.source) {
            object["file_sector"] = json!(at);
            object["byte_offset"] = json!(at * SECTOR);
        }
        if let Source::Packed { size, .. } = self.source {
            object["size"] = json!(size);
        }
        object
    }

    fn line(&self, holder: &str) -> String {
        let place = match self.source {
            Source::Absent | Source::Zero => String::new(),
            Source::Stored { sector: at } => format!(" {at:>12} {:>14}", at * SECTOR),
            Source::Packed {
                sector: at, size, ..
            } => format!(" {at:>12} {:>14} {size:>7}", at * SECTOR),
        };
        let (first, sectors, layer, kind) =
            (self.first, self.sectors, self.layer, word(self.source));
        let width = holder.len();
        format!("{first:>12} {sectors:>12} {layer:>width$} {kind:<7}{place}")
            .trim_end()
            .to_string()
            + "\n"
    }
}

fn runs(given: &mut Given, cut: &Grains) -> Result<Vec<Run>, Failure> {
    let capacity = cut.capacity();
    let progress = Progress::start("mapping", capacity);
    let mut runs: Vec<Run> = Vec::new();
    let mut first = 0;
    while first < capacity {
        let found = given.locate(first)?;
        let sectors = cut.around(first).end - first;
        match runs.last_mut() {
            Some(run) if run.goes_on(&found) => run.sectors += sectors,
            _ => runs.push(Run {
                first,
                sectors,
                layer: found.layer,
                source: found.source,
            }),
        }
        first += sectors;
        progress.at(first);
    }
    Ok(runs)
}

/// The files, and capacity and grain size.
pub fn heading(given: &Given, cut: &Grains) -> String {
    let line = |(layer, path)| format!("layer {layer}: {}\n", name(path));
    let files: String = match given {
        Given::Layers(layers) => layers.paths().enumerate().map(line).collect(),
        Given::Split(split) => split.lines(),
    };
    let size = match cut.size() {
        Some(size) => format!(", grain size {size}"),
        None => String::new(),
    };
    format!("{files}capacity {} sectors{size}\n", cut.capacity())
}

pub fn map(paths: &[PathBuf], json: bool) -> Result<(), Failure> {
    let mut given = Given::open(paths)?;
    let cut = given.grains()?;
    let runs = runs(&mut given, &cut)?;
    given.same()?;

    let holder = given.word();
    if json {
        return print::members(|object| {
            object.member("capacity", &cut.capacity())?;
            given.tell_files(object)?;
            object.member("grain_size", &cut.size())?;
            object.list("runs", |take| {
                runs.iter().try_for_each(|run| take(&run.object(holder)))
            })
        });
    }
    let mut printer = Printer::new();
    printer.text(&heading(&given, &cut))?;
    printer.text(&format!(
        "       first      sectors {holder} kind     file sector    byte offset    size\n"
    ))?;
    for run in &runs {
        printer.text(&run.line(holder))?;
    }
    printer.done()
}
