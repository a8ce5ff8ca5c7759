//! `digest --list`: an image compared with a list of digests, line by line.

use crate::batch::{Batch, Found, Item, Listed, Reader};
use crate::cores::in_order;
use crate::difference::{Difference, Fault};
use crate::failure::{Failure, Status};
use crate::files::same;
use crate::given::Given;
use crate::grains::Grains;
use crate::hash::Hasher;
use crate::named::Named;
use crate::names;
use crate::print::{self, Printer};
use crate::progress::Progress;
use crate::stretch::Stretch;
use std::ops::Range;
use std::path::PathBuf;

/// What to compare with, and how.
pub struct Asked {
    pub list: PathBuf,
    pub grains: bool,
    /// Whether what the list leaves out is a failure.
    pub complete: bool,
    /// The sectors that are compared.
    pub stretch: Stretch,
}

/// Takes a line that does not hold.
type Tell<'a> = &'a mut dyn FnMut(&Difference) -> Result<(), Failure>;

/// A comparison and how far it went.
struct Comparison<'a> {
    asked: &'a Asked,
    cut: &'a Grains,
    /// Sectors of what a line tells: of a grain, if grains are compared.
    unit: u64,
    /// What is compared, and how many sectors of it there are or, if grains are compared, grains.
    range: Range<u64>,
    units: u64,
    named: Named,
    lines: u64,
    failed: u64,
}

impl<'a> Comparison<'a> {
    fn of(cut: &'a Grains, range: Range<u64>, asked: &'a Asked) -> Comparison<'a> {
        let unit = cut.size().filter(|_| asked.grains).unwrap_or(1);
        Comparison {
            asked,
            cut,
            unit,
            units: (range.end - 1) / unit - range.start / unit + 1,
            named: Named::below(range.end / unit + 1),
            range,
            lines: 0,
            failed: 0,
        }
    }

    /// Compares with each line, on all cores, and hands over in their order those that do not hold.
    fn run(&mut self, given: &mut Given, tell: Tell) -> Result<(), Failure> {
        let grains = self.asked.grains;
        let files = given.files();
        let mut progress = Some(Progress::start("comparing", 0));
        let range = self.range.clone();
        let mut reader = Reader::open(given, self.cut, grains, range, &self.asked.list)?;
        in_order(
            || reader.next(),
            |batch| {
                let found = batch.found(&mut Hasher::new(&files), grains)?;
                Ok((batch, found))
            },
            |done: Result<(Batch, Vec<Found>), Failure>| {
                let (batch, found) = done?;
                same(&files)?;
                self.judge(batch, &found, &mut |difference| {
                    // A bar would stand between the lines.
                    progress = None;
                    tell(difference)
                })
            },
        )?;
        same(&files)
    }

    fn judge(&mut self, batch: Batch, found: &[Found], tell: Tell) -> Result<(), Failure> {
        let mut found = found.iter();
        for Item { line, listed } in batch.items {
            self.lines += 1;
            let (sector, fault) = match listed {
                Err((sector, fault)) => (sector, Some(fault)),
                Ok(listed) => {
                    let fault = found.next().and_then(|found| self.fault(&listed, found));
                    (Some(listed.sector), fault)
                }
            };
            if let Some(fault) = fault {
                self.failed += 1;
                tell(&Difference {
                    line,
                    sector,
                    fault,
                })?;
            }
        }
        Ok(())
    }

    /// Why a listed line does not hold, or nothing.
    fn fault(&mut self, listed: &Listed, found: &Found) -> Option<Fault> {
        let sector = listed.sector;
        let packed = listed.packed && found.packed;
        if packed && sector != found.first {
            Some(Fault::Inside(found.first))
        } else if !self.name(sector, packed) {
            Some(Fault::Twice)
        } else if found.packed && !listed.packed {
            Some(Fault::Packed(found.first))
        } else if listed.packed && !found.packed {
            Some(Fault::Open)
        } else if let Some(bytes) = listed.bytes.filter(|bytes| *bytes != found.bytes) {
            Some(Fault::Size(bytes, found.bytes))
        } else if listed.hash != found.hash {
            let [listed, found] = [listed.hash, found.hash].map(|hash| names::hex(&hash));
            Some(Fault::Digest(listed, found))
        } else {
            None
        }
    }

    /// Whether a sector was not named before. The line of a packed grain names all sectors of it that are compared.
    fn name(&mut self, sector: u64, packed: bool) -> bool {
        if self.asked.grains {
            return self.named.mark(sector / self.unit);
        }
        let end = match packed {
            true => self.cut.around(sector).end,
            false => sector + 1,
        };
        let compared = sector.max(self.range.start)..end.min(self.range.end);
        // Whether the first of them is new tells it of all.
        let new = compared.map(|sector| self.named.mark(sector));
        new.reduce(|first, _| first).unwrap_or(true)
    }

    fn left_out(&self) -> u64 {
        self.units - self.named.count
    }

    fn holds(&self) -> bool {
        self.failed == 0 && self.lines > 0 && !(self.asked.complete && self.left_out() > 0)
    }

    fn word(&self) -> &'static str {
        if self.asked.grains {
            "grain"
        } else {
            "sector"
        }
    }

    fn summary(&self) -> String {
        let (lines, failed, units, unit) = (self.lines, self.failed, self.units, self.word());
        let compared = match failed {
            _ if lines == 0 => "there is no line to compare with".to_string(),
            0 => format!("all {lines} digests agree"),
            _ => format!("{failed} of {lines} lines fail"),
        };
        let of = match self.range == (0..self.cut.capacity()) {
            true => "the disk's",
            false => "the stretch's",
        };
        let left = match self.left_out() {
            0 => format!("none of {of} {units} {unit}s is left out"),
            1 => format!("1 of {of} {units} {unit}s is left out"),
            left => format!("{left} of {of} {units} {unit}s are left out"),
        };
        let incomplete = if self.asked.complete && self.left_out() > 0 {
            ", so it is not complete"
        } else {
            ""
        };
        let list = names::name(&self.asked.list);
        format!("{list}: {compared}; {left}{incomplete}\n")
    }
}

pub fn compare(paths: &[PathBuf], asked: &Asked, json: bool) -> Result<(), Failure> {
    let mut given = Given::open(paths)?;
    let cut = given.cut(asked.grains)?;
    let range = asked.stretch.on(&mut given, cut.capacity())?;
    let mut comparison = Comparison::of(&cut, range, asked);
    if json {
        print::members(|object| {
            object.list("differences", |take| {
                comparison.run(&mut given, &mut |difference| take(&difference.object()))
            })?;
            object.members(given.remarks())?;
            object.member("agree", &comparison.holds())?;
            object.member("compared", &comparison.lines)?;
            object.member("disk", &comparison.units)?;
            object.member("left_out", &comparison.left_out())?;
            object.member("of", comparison.word())
        })?;
    } else {
        let mut printer = Printer::new();
        let name = names::name(&asked.list);
        comparison.run(&mut given, &mut |difference| {
            printer.text(&format!("{name}: {}\n", difference.text()))
        })?;
        printer.text(&comparison.summary())?;
        printer.done()?;
    }
    if comparison.holds() {
        Ok(())
    } else {
        Err(Failure::Told(Status::Differs))
    }
}
