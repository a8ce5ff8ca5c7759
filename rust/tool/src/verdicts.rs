//! `check` of a disk of several files: a verdict for each extent, and one for the disk.

use crate::described::Described;
use crate::failure::{Failure, Status};
use crate::files::same;
use crate::grains::Grains;
use crate::hint::hinted;
use crate::judged::Judged;
use crate::member::Member;
use crate::names::name;
use crate::still_open;
use serde_json::{json, Value};

/// A longer name moves its own line alone.
const LONGEST_NAME: usize = 48;

/// The grain size, where the extent is an image.
type Verdict = Judged<Option<u64>>;

pub struct Verdicts {
    disk: Described,
    all: Vec<Verdict>,
}

/// An extent with its file, once the library has judged it, and what it is refused for.
type Extent = Result<(Member, Result<(), Failure>), Failure>;

fn judged(disk: &Described, extent: usize) -> Extent {
    let mut member = Member::open(disk, extent)?;
    let judged = member.judge(disk);
    Ok((member, judged))
}

/// The verdict on an extent, if its file is still what was judged.
fn verdict(disk: &Described, (number, extent): (usize, Extent)) -> Verdict {
    let (size, open) = match extent {
        Ok((member, judged)) => {
            let size = judged.and_then(|()| same(&member.files()));
            (size.map(|()| member.grain_size()), member.still_open())
        }
        Err(failure) => (Err(failure), None),
    };
    let size = size.map_err(disk.blamed(number)).map_err(hinted);
    Judged::new(size, open)
}

fn told(judged: &Verdict) -> String {
    let verdict = match judged.verdict.as_ref().map_err(Failure::of_extent) {
        Ok(Some(size)) => format!("accepted, grain size {size}"),
        Ok(None) => "accepted".to_string(),
        Err(failure @ Failure::Refused(_)) => failure.reason(),
        Err(failure) => format!("not read: {}", failure.reason()),
    };
    verdict + judged.remark()
}

fn put(object: &mut Value, judged: &Verdict) {
    match judged.verdict.as_ref().map_err(Failure::of_extent) {
        Ok(size) => object["accepted"] = json!({ "grain_size": size }),
        Err(Failure::Refused(refusal)) => object["refused"] = refusal.json(),
        Err(failure) => object["failed"] = json!(failure.to_string()),
    }
    still_open::put(object, judged.still_open);
}

impl Verdicts {
    /// Each extent is judged, whatever is wrong with another.
    pub fn of(disk: Described) -> Result<Verdicts, Failure> {
        let extents = (0..disk.extents.len()).map(|extent| judged(&disk, extent));
        let extents: Vec<_> = extents.collect();
        // All of them are accepted at one time, or the disk is not.
        let all = extents.into_iter().enumerate();
        let all = all.map(|judged| verdict(&disk, judged)).collect();
        disk.file.same()?;
        Ok(Verdicts { disk, all })
    }

    fn capacity(&self) -> u64 {
        self.disk.extents.iter().map(|extent| extent.sectors).sum()
    }

    fn failures(&self) -> impl Iterator<Item = &Failure> {
        let verdicts = self.all.iter().map(|judged| &judged.verdict);
        verdicts.filter_map(|verdict| verdict.as_ref().err())
    }

    /// Whether one of the images was still open; nothing where there is none.
    fn still_open(&self) -> Option<bool> {
        self.all.iter().filter_map(|judged| judged.still_open).max()
    }

    /// None where every extent is accepted.
    pub fn status(&self) -> Option<Status> {
        self.failures().map(Failure::status).max()
    }

    /// The verdict on the disk, then a table with a row for each extent.
    pub fn lines(&self) -> String {
        let files: Vec<String> = (0..self.all.len())
            .map(|extent| self.file(extent))
            .collect();
        let widest = files.iter().map(|file| file.chars().count()).max();
        let width = widest.unwrap_or(0).clamp("file".len(), LONGEST_NAME);
        let mut lines = self.summary() + still_open::remark(self.still_open()) + "\n";
        lines += &format!(
            "extent        first      sectors access   type       {:<width$}  verdict\n",
            "file"
        );
        for (number, (verdict, file)) in self.all.iter().zip(files).enumerate() {
            let extent = &self.disk.extents[number];
            lines += &format!(
                "{number:>6} {:>12} {:>12} {:<8} {:<10} {file:<width$}  {}\n",
                extent.first,
                extent.sectors,
                extent.access.word(),
                extent.kind.word(),
                told(verdict),
            );
        }
        lines
    }

    fn summary(&self) -> String {
        let (file, extents) = (name(&self.disk.file.path), self.all.len());
        let of = if extents == 1 { "extent" } else { "extents" };
        if self.status().is_none() {
            let capacity = self.capacity();
            return format!("{file}: accepted, capacity {capacity} sectors in {extents} {of}");
        }
        let refused = |failure: &&Failure| failure.status() == Status::Refused;
        let refused = self.failures().filter(refused).count();
        let unread = match self.failures().count() - refused {
            0 => String::new(),
            unread => format!(", {unread} not read"),
        };
        format!("{file}: not accepted, of {extents} {of} {refused} refused{unread}")
    }

    fn file(&self, extent: usize) -> String {
        let path = self.disk.path(extent);
        path.map_or_else(|| "-".to_string(), |path| name(&path))
    }

    /// The disk is accepted, or refused or failed as the first of its worst extents is.
    pub fn object(&self) -> Value {
        let worst = self.status();
        let mut failures = self.failures();
        let failure = failures.find(|failure| Some(failure.status()) == worst);
        let mut object = failure.map_or_else(|| self.accepted(), Failure::json);
        let extents = self.all.iter().enumerate().map(|(extent, verdict)| {
            let mut object = self.disk.object(extent);
            put(&mut object, verdict);
            object
        });
        object["extents"] = extents.collect();
        still_open::put(&mut object, self.still_open());
        object
    }

    fn accepted(&self) -> Value {
        let sizes = self.all.iter().flat_map(|judged| &judged.verdict);
        let sectors = self.disk.extents.iter().map(|extent| extent.sectors);
        let cut = Grains::of_extents(0, &sectors.zip(sizes.copied()).collect::<Vec<_>>());
        json!({ "accepted": { "capacity": cut.capacity(), "grain_size": cut.size() } })
    }
}
