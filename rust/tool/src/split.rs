//! A disk of several files: the extents of a descriptor, all of them or the one that holds a sector.

use crate::described::Described;
use crate::failure::{Failure, Refusal};
use crate::files::{same, Files};
use crate::grains::Grains;
use crate::hash::Place;
use crate::json::Object;
use crate::member::Member;
use crate::names::{self, name};
use crate::still_open::OpenImages;
use crate::stretch::Stretch;
use anhkhovet::Located;
use serde_json::{json, Value};
use std::iter::once;
use std::ops::Range;
use std::path::PathBuf;
use std::sync::Arc;

const OTHERS_ANSWER: &str =
    "so there is no answer for the whole disk; `anhkhovet sector` and `anhkhovet read` answer for the other extents";

pub struct Split {
    pub disk: Described,
    /// In the order of their sectors, each with the number of its file.
    members: Vec<(Member, usize)>,
    /// The place among them of the one that held the last sector.
    near: usize,
    /// The descriptor, then the files of these extents.
    files: Files,
}

impl Split {
    /// With the files of all extents.
    pub fn whole(disk: Described) -> Result<Split, Failure> {
        let all = 0..disk.extents.len();
        Split::of(disk, all)
    }

    /// With the file of the extent alone that holds a sector: no other one is judged, nor need it be there.
    pub fn at(disk: Described, sector: u64) -> Result<Split, Failure> {
        let (first, count) = (sector, Some(1));
        Split::over(disk, Stretch { first, count })
    }

    /// The same with the extents that hold a stretch.
    pub fn over(disk: Described, stretch: Stretch) -> Result<Split, Failure> {
        let first = found(&disk, stretch.first)?;
        let last = found(&disk, stretch.last(capacity(&disk)))?;
        Split::of(disk, first..last + 1)
    }

    /// Whether the disk has a sector, or the refusal.
    pub fn holds(&self, sector: u64) -> Result<(), Failure> {
        found(&self.disk, sector).map(|_| ())
    }

    fn of(disk: Described, extents: Range<usize>) -> Result<Split, Failure> {
        let mut files = vec![Arc::clone(&disk.file)];
        let mut members = Vec::new();
        for extent in extents {
            let member = Member::open(&disk, extent).map_err(disk.blamed(extent))?;
            let own = member.files();
            members.push((member, files.len()));
            files.extend(own);
        }
        Ok(Split {
            disk,
            members,
            near: 0,
            files,
        })
    }

    pub fn files(&self) -> Files {
        self.files.clone()
    }

    pub fn same(&self) -> Result<(), Failure> {
        same(&self.files)
    }

    /// The paths of the descriptor and of all files that it names.
    pub fn paths(&self) -> Vec<PathBuf> {
        let extents = (0..self.disk.extents.len()).filter_map(|extent| self.disk.path(extent));
        let descriptor = self.disk.file.path.clone();
        once(descriptor).chain(extents).collect()
    }

    /// Judges each extent, once: then each sector has an answer, and the files are asked one by one.
    pub fn grains(&mut self) -> Result<Grains, Failure> {
        let alone = self.members.len() == 1;
        for (member, _) in &mut self.members {
            let judged = member.judge(&self.disk).map_err(|mut failure| {
                if let (Failure::Refused(refusal), false) = (&mut failure, alone) {
                    refusal.detail = OTHERS_ANSWER.to_string();
                }
                failure
            });
            judged.map_err(self.disk.blamed(member.number))?;
        }
        let cut = |(member, _): &(Member, usize)| (member.sectors, member.grain_size());
        let extents: Vec<_> = self.members.iter().map(cut).collect();
        Ok(Grains::of_extents(self.members[0].0.first, &extents))
    }

    /// Why there are no digests of grains.
    pub fn without_grains(&self) -> Failure {
        Failure::Misused(
            self.disk.file.path.clone(),
            "the disk has no grains: for `--grain` its images need one grain size, at whose multiples each extent begins",
        )
    }

    /// The place, among these extents, of the one that holds a sector.
    fn holding(&self, sector: u64) -> usize {
        if self.members[self.near].0.holds(sector) {
            return self.near;
        }
        let after = |(member, _): &(Member, usize)| member.first <= sector;
        self.members.partition_point(after).saturating_sub(1)
    }

    /// Where a sector of these extents comes from; the layer is the extent.
    pub fn locate(&mut self, sector: u64) -> Result<Located, Failure> {
        let at = self.holding(sector);
        self.near = at;
        let (member, _) = &mut self.members[at];
        let extent = member.number;
        let found = member.locate(&self.disk, sector);
        Ok(Located {
            layer: extent as u64,
            source: found.map_err(self.disk.blamed(extent))?,
        })
    }

    /// Where the bytes of `sectors` from `first` on are, all of them of one grain, with this source.
    pub fn place(&self, found: &Located, first: u64, sectors: u64) -> Place {
        let (member, file) = &self.members[self.holding(first)];
        Place {
            file: *file,
            bytes: member.place(found.source, first, sectors),
        }
    }

    /// The own bytes of each extent's file, and its grain size where it is an image that was judged.
    pub fn parts(&self) -> Vec<(&[u8], Option<u64>)> {
        let members = self.members.iter().map(|(member, _)| member);
        let parts = members.map(|member| (member.bytes(), member.grain_size()));
        parts.collect()
    }

    /// The images of these extents that were still open.
    pub fn open_images(&self) -> OpenImages {
        let open = |(member, _): &&(Member, usize)| member.still_open() == Some(true);
        let members = self.members.iter().filter(open);
        OpenImages::of(members.filter_map(|(member, _)| {
            let path = self.disk.path(member.number)?;
            let disk = name(&self.disk.file.path);
            let told = format!("{disk}: extent {}: {}", member.number, name(&path));
            Some((told, path))
        }))
    }

    /// All extents in words: the type, the grain size where it is an image, the file.
    pub fn lines(&self) -> String {
        let line = |(member, _): &(Member, usize)| {
            let number = member.number;
            let kind = self.disk.extents[number].kind.word();
            let size = match member.grain_size() {
                Some(size) => format!(", grain size {size}"),
                None => String::new(),
            };
            let file = match self.disk.path(number) {
                Some(path) => format!(": {}", name(&path)),
                None => String::new(),
            };
            format!("extent {number} ({kind}{size}){file}\n")
        };
        self.members.iter().map(line).collect()
    }

    /// The members `extents` and `file`, the descriptor.
    pub fn tell_files(&self, object: &mut Object) -> Result<(), Failure> {
        let extent = |(member, _): &(Member, usize)| {
            let mut object = self.disk.object(member.number);
            if let Some(size) = member.grain_size() {
                object["grain_size"] = json!(size);
            }
            object
        };
        let extents: Vec<Value> = self.members.iter().map(extent).collect();
        object.member("extents", &extents)?;
        names::member(object, "file", &self.disk.file.path)
    }
}

fn capacity(disk: &Described) -> u64 {
    disk.extents.iter().map(|extent| extent.sectors).sum()
}

/// The extent that holds a sector, or the refusal.
fn found(disk: &Described, sector: u64) -> Result<usize, Failure> {
    anhkhovet::find(&disk.extents, sector).map_err(|why| {
        let mut refusal = Refusal::new(why, Some(&disk.file.path));
        refusal.detail = format!("the last sector is {}", capacity(disk) - 1);
        Failure::Refused(refusal)
    })
}

#[cfg(test)]
mod tests;
