//! `mend`: what differs between the tables of an image's two directories, and a copy in which both are as the good one.

use crate::changes;
use crate::cli::Target;
use crate::copied::Copied;
use crate::differing::{self, Differing, How};
use crate::failure::Failure;
use crate::files::Layers;
use crate::mended::{other, word, Mended};
use crate::names::{self, name};
use crate::output::Output;
use crate::print::{self, Printer};
use crate::progress::Progress;
use crate::still_open::OpenImages;
use anhkhovet::{Refusal, Side, SECTOR};
use std::collections::BTreeSet;
use std::path::PathBuf;
use std::slice;

/// Lines of a table in words, unless all are asked for.
const SHORT: u64 = 20;

const ABSENT: &str =
    "an absent grain counts as zeros here: where there is a parent, that serves it\n";
const UNWRITTEN: &str = "nothing is written: -o OUT writes the mended image\n";

/// What the words of the command line ask for.
pub struct Asked {
    pub file: PathBuf,
    pub good: Side,
    pub target: Option<Target>,
    pub all: bool,
}

/// What there is to tell.
struct Told<'a> {
    asked: &'a Asked,
    mended: Mended,
    differing: Differing,
    /// The length of the output, where there is one.
    written: Option<u64>,
    open: OpenImages,
}

pub fn mend(asked: &Asked, json: bool) -> Result<(), Failure> {
    let image = Layers::one(&asked.file)?;
    let open = OpenImages::of_layers(&image);
    image.same()?;
    open.note();
    let output = match &asked.target {
        Some(target) => Some(Output::create(target, slice::from_ref(&asked.file))?),
        None => None,
    };
    let progress = Progress::start("mending", 0);
    let mut mended = Mended::of(image, asked.good)?;
    drop(progress);
    let copy = match output {
        Some(output) => Some(Copied::of(&mended, output)?),
        None => None,
    };
    let differing = Differing::of(&mut mended)?;
    let written = match copy {
        Some(copy) => Some(copy.write(&mended)?),
        None => mended.image.same().map(|()| None)?,
    };
    let told = Told {
        asked,
        mended,
        differing,
        written,
        open,
    };
    if json {
        told.object()
    } else {
        told.lines()
    }
}

impl Told<'_> {
    /// How many lines of a table are told.
    fn most(&self) -> u64 {
        if self.asked.all {
            u64::MAX
        } else {
            SHORT
        }
    }

    fn rest(&self, count: u64) -> String {
        match count.saturating_sub(self.most()) {
            0 => String::new(),
            rest => format!("and {rest} more, which --all lists\n"),
        }
    }

    fn lines(mut self) -> Result<(), Failure> {
        let mut printer = Printer::new();
        printer.text(&self.summary())?;
        if self.mended.count > 0 {
            self.changes(&mut printer)?;
            self.differing(&mut printer)?;
        }
        printer.text(&self.end())?;
        printer.done()
    }

    fn summary(&self) -> String {
        let (file, good) = (name(&self.asked.file), self.mended.good);
        if self.mended.count == 0 {
            return format!("{file}: nothing to mend: the tables of its two sides are alike\n");
        }
        let (good, bad) = (word(good), word(other(good)));
        let change = match self.mended.count {
            1 => format!("1 entry of the {bad} ones changes"),
            count => format!("{count} entries of the {bad} ones change"),
        };
        format!("{file}: can be mended from its {good} tables: {change}\n")
    }

    fn changes(&mut self, printer: &mut Printer) -> Result<(), Failure> {
        let (most, count) = (self.most(), self.mended.count);
        let mut numbers = BTreeSet::new();
        printer.text(changes::TITLES)?;
        for changed in self.mended.changes().take(most as usize) {
            let changed = changed?;
            numbers.extend(changed.old.source.err().map(|refusal| refusal.number));
            printer.text(&changed.line())?;
        }
        printer.text(&self.rest(count))?;
        numbers.into_iter().try_for_each(|number| {
            let sentence = Refusal { number, place: 0 }.sentence();
            printer.text(&format!("refused {number}: {sentence}\n"))
        })
    }

    fn differing(&self, printer: &mut Printer) -> Result<(), Failure> {
        let Differing { runs, absent } = &self.differing;
        if self.mended.good == Side::Primary {
            return printer.text("the disk reads as before: the primary tables serve it\n");
        }
        if runs.is_empty() {
            printer.text("the disk reads as before: all its sectors have the same bytes\n")?;
        } else {
            let sectors: u64 = runs.iter().map(|run| run.sectors).sum();
            let packed = runs.iter().any(|run| run.how == How::Packed);
            let may = if packed { " may" } else { "" };
            printer.text(&format!(
                "sectors of the disk that{may} read otherwise: {sectors}, {} bytes\n",
                sectors * SECTOR
            ))?;
            printer.text(differing::TITLES)?;
            let mut listed = runs.iter().take(self.most() as usize);
            listed.try_for_each(|run| printer.text(&run.line()))?;
            printer.text(&self.rest(runs.len() as u64))?;
        }
        printer.text(if *absent { ABSENT } else { "" })
    }

    fn end(&self) -> String {
        let mut end = String::new();
        if self.mended.count > 0 && self.mended.either {
            let side = word(other(self.mended.good));
            end += &format!("it can be mended from its {side} tables too: which side is good is for you to say\n");
        }
        match (&self.asked.target, self.written) {
            (Some(target), Some(length)) => {
                end + &format!("{}: written, {length} bytes\n", name(&target.path))
            }
            _ if self.mended.count > 0 => end + UNWRITTEN,
            _ => end,
        }
    }

    fn object(mut self) -> Result<(), Failure> {
        print::members(|object| {
            names::member(object, "file", &self.asked.file)?;
            object.member("good", word(self.mended.good))?;
            object.member("capacity", &self.mended.disk.capacity)?;
            object.member("grain_size", &self.mended.disk.grain_size)?;
            object.members(self.open.members())?;
            object.member("other_side_too", &self.mended.either)?;
            object.member("count", &self.mended.count)?;
            object.list("changes", |take| {
                let mut changes = self.mended.changes();
                changes.try_for_each(|changed| take(&changed?.object()))
            })?;
            object.list("differing", |take| {
                let mut runs = self.differing.runs.iter();
                runs.try_for_each(|run| take(&run.object()))
            })?;
            match (&self.asked.target, self.written) {
                (Some(target), Some(length)) => {
                    names::member(object, "output", &target.path)?;
                    object.member("length", &length)
                }
                _ => Ok(()),
            }
        })
    }
}
