//! `map --coverage`: what each sector of each file is for, and where each sector of the disk comes from, all of them counted.
//! One lookup a grain is enough, and one more in each layer below the one that serves it.

use crate::checked::checked;
use crate::failure::Failure;
use crate::given::Given;
use crate::grains::Grains;
use crate::held::{Held, Taken, COLUMNS};
use crate::map::heading;
use crate::print;
use crate::progress::Progress;
use anhkhovet::{Located, Source, SECTOR};
use serde_json::{json, Value};
use std::ops::Range;
use std::path::PathBuf;

/// Sectors or grains of the disk.
#[derive(Default)]
struct Kinds {
    stored: u64,
    packed: u64,
    zero: u64,
    absent: u64,
}

impl Kinds {
    fn add(&mut self, source: Source, count: u64) {
        let kind = match source {
            Source::Stored { .. } => &mut self.stored,
            Source::Packed { .. } => &mut self.packed,
            Source::Zero => &mut self.zero,
            Source::Absent => &mut self.absent,
        };
        *kind += count;
    }

    /// Each kind and, last, all of them.
    fn counts(&self) -> [(&'static str, u64); 5] {
        let all = self.stored + self.packed + self.zero + self.absent;
        [
            ("stored", self.stored),
            ("packed", self.packed),
            ("zero", self.zero),
            ("absent", self.absent),
            ("all", all),
        ]
    }

    fn object(&self) -> Value {
        self.counts()
            .iter()
            .map(|(kind, count)| (kind.to_string(), json!(count)))
            .collect()
    }
}

struct Coverage {
    /// By the number of the layer or extent.
    files: Vec<Held>,
    sectors: Kinds,
    grains: Kinds,
}

impl Coverage {
    fn counted(given: &mut Given, cut: &Grains) -> Result<Coverage, Failure> {
        let parts = given.parts(cut).into_iter();
        let files = parts.map(|(own, size)| Held::of(own, size));
        let mut coverage = Coverage {
            files: files.collect::<Result<_, _>>()?,
            sectors: Kinds::default(),
            grains: Kinds::default(),
        };
        let progress = Progress::start("counting", cut.capacity());
        let mut first = 0;
        while first < cut.capacity() {
            let grain = cut.around(first);
            first = grain.end;
            coverage.add(given, grain)?;
            progress.at(first);
        }
        Ok(coverage)
    }

    /// One grain, as far as it lies below capacity.
    fn add(&mut self, given: &mut Given, grain: Range<u64>) -> Result<(), Failure> {
        let found = given.locate(grain.start)?;
        self.sectors.add(found.source, grain.end - grain.start);
        self.grains.add(found.source, 1);
        let taken = self.taken(given, &found, &grain);
        self.file(&found).serve(found.source, taken);
        for below in given.below(&found, grain.start)? {
            let taken = self.taken(given, &below, &grain);
            self.file(&below).hide(taken);
        }
        Ok(())
    }

    /// An object for each file. `holder` says what the files are called.
    fn rows(&self, holder: &str) -> Vec<Value> {
        let numbered = |(number, file): (usize, &Held)| {
            let mut row = file.object();
            row[holder] = json!(number);
            row
        };
        self.files.iter().enumerate().map(numbered).collect()
    }

    fn file(&mut self, found: &Located) -> &mut Held {
        &mut self.files[found.layer as usize]
    }

    /// What a grain takes of its file.
    fn taken(&mut self, given: &Given, found: &Located, grain: &Range<u64>) -> Taken {
        let below_capacity = match found.source {
            Source::Stored { .. } => return self.file(found).stored(grain.end - grain.start),
            Source::Absent | Source::Zero => 0,
            // From the marker to the end of the payload.
            Source::Packed { sector, .. } => {
                let end = given.place(found, grain.start, 1).bytes.end;
                (end + SECTOR - 1) / SECTOR - sector
            }
        };
        Taken {
            below_capacity,
            past_capacity: 0,
        }
    }
}

/// Judges each layer wholly, base first: of an image that is refused a sector may count twice. Extents are judged so where the
/// grains of their disk are asked for.
fn accept(given: &mut Given) -> Result<(), Failure> {
    let layers = match given {
        Given::Layers(layers) => layers,
        Given::Split(_) => return Ok(()),
    };
    let _progress = Progress::start("checking", 0);
    (0..layers.count() as u64).try_for_each(|layer| {
        let answer = layers.ask(layer, checked)?;
        layers.same()?;
        answer
            .map(drop)
            .map_err(Failure::refused(layers.path(layer)))
    })
}

/// Numbers or titles, each below the one of the row before it.
fn row<T: ToString>(name: &str, cells: impl IntoIterator<Item = T>) -> String {
    let cells = cells.into_iter().map(|cell| cell.to_string());
    let cells: String = cells.map(|cell| format!(" {cell:>13}")).collect();
    format!("{name:>7}{cells}\n")
}

/// The table of the files, with sums where there are several, and that of the disk.
fn tables(holder: &str, coverage: &Coverage, cut: &Grains) -> String {
    let Coverage {
        files,
        sectors,
        grains,
    } = coverage;
    let mut lines = row(holder, COLUMNS.map(|(title, _)| title));
    for (number, file) in files.iter().enumerate() {
        lines += &row(&number.to_string(), COLUMNS.map(|(_, count)| count(file)));
    }
    if files.len() > 1 {
        lines += &row(
            "all",
            COLUMNS.map(|(_, count)| files.iter().map(count).sum::<u64>()),
        );
    }
    lines += &row("disk", sectors.counts().map(|(kind, _)| kind));
    lines += &row("sectors", sectors.counts().map(|(_, count)| count));
    if cut.size().is_some() {
        lines += &row("grains", grains.counts().map(|(_, count)| count));
    }
    lines
}

pub fn coverage(paths: &[PathBuf], json: bool) -> Result<(), Failure> {
    let mut given = Given::open(paths)?;
    accept(&mut given)?;
    let cut = given.grains()?;
    let coverage = Coverage::counted(&mut given, &cut)?;
    given.same()?;

    let holder = given.word();
    if !json {
        return print::text(&(heading(&given, &cut) + &tables(holder, &coverage, &cut)));
    }
    print::members(|object| {
        object.member("capacity", &cut.capacity())?;
        given.tell_files(object)?;
        object.member("grain_size", &cut.size())?;
        object.member("coverage", &coverage.rows(holder))?;
        let grains = cut.size().map(|_| coverage.grains.object());
        let disk = json!({ "sectors": coverage.sectors.object(), "grains": grains });
        object.member("disk", &disk)
    })
}
