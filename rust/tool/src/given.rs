//! What the files of a command are together: an image or the layers of a chain, or a disk of several files by its descriptor.

use crate::described::{Described, Opened};
use crate::failure::Failure;
use crate::files::{Files, Layers};
use crate::grains::Grains;
use crate::hash::Place;
use crate::json::Object;
use crate::names;
use crate::split::Split;
use crate::still_open::OpenImages;
use crate::stretch::Stretch;
use anhkhovet::Located;
use serde_json::Value;
use std::ops::Range;
use std::path::{Path, PathBuf};

/// As much is read and told at once: whole sectors. The payload of a packed grain may be as long as the file.
const PART: u64 = 1 << 20;

pub enum Given {
    Layers(Layers),
    Split(Split),
}

/// What holds a sector: the number of a layer or an extent, and its file.
pub struct Holder {
    pub number: u64,
    pub file: Option<PathBuf>,
    /// Layers that are asked for the sector one after the other.
    pub chain: bool,
}

impl Given {
    /// For answers on all sectors.
    pub fn open(paths: &[PathBuf]) -> Result<Given, Failure> {
        Given::of(paths, Split::whole)?.remarked()
    }

    /// For an answer on one sector.
    pub fn at(paths: &[PathBuf], sector: u64) -> Result<Given, Failure> {
        Given::of(paths, |disk| Split::at(disk, sector))?.remarked()
    }

    /// For an answer on sectors in a row.
    pub fn over(paths: &[PathBuf], stretch: Stretch) -> Result<Given, Failure> {
        Given::of(paths, |disk| Split::over(disk, stretch))?.remarked()
    }

    /// A descriptor is a disk where it is handed in alone. Among several files it is taken for a layer, and refused as one.
    fn of(
        paths: &[PathBuf],
        split: impl FnOnce(Described) -> Result<Split, Failure>,
    ) -> Result<Given, Failure> {
        let path = match paths {
            [path] => path,
            _ => return Layers::open(paths).map(Given::Layers),
        };
        match Opened::at(path)? {
            Opened::Image(file) => Layers::of(vec![file]).map(Given::Layers),
            Opened::Descriptor(disk) => split(disk).map(Given::Split),
        }
    }

    /// Tells of the images that were still open, and of layers that are no parent and child, before all else: so it stands beside a
    /// refusal too.
    fn remarked(self) -> Result<Given, Failure> {
        let open = self.open_images();
        self.same()?;
        open.note();
        if let Given::Layers(layers) = &self {
            layers.strangers().judged()?;
        }
        Ok(self)
    }

    /// The members that say the same.
    pub fn remarks(&self) -> Vec<(String, Value)> {
        let mut members = self.open_images().members();
        if let Given::Layers(layers) = self {
            members.extend(layers.strangers().members());
        }
        members
    }

    pub fn open_images(&self) -> OpenImages {
        match self {
            Given::Layers(layers) => OpenImages::of_layers(layers),
            Given::Split(split) => split.open_images(),
        }
    }

    /// The paths of all that is read, or belongs to what is read.
    pub fn paths(&self) -> Vec<PathBuf> {
        match self {
            Given::Layers(layers) => layers.paths().map(Path::to_path_buf).collect(),
            Given::Split(split) => split.paths(),
        }
    }

    pub fn files(&self) -> Files {
        match self {
            Given::Layers(layers) => layers.files(),
            Given::Split(split) => split.files(),
        }
    }

    /// To be asked after reading and before telling.
    pub fn same(&self) -> Result<(), Failure> {
        match self {
            Given::Layers(layers) => layers.same(),
            Given::Split(split) => split.same(),
        }
    }

    /// Hands over these bytes of a file, part by part, each read before the files were looked at and found unchanged.
    pub fn each_part(
        &self,
        file: usize,
        bytes: Range<u64>,
        take: &mut impl FnMut(&[u8]) -> Result<(), Failure>,
    ) -> Result<(), Failure> {
        let file = &self.files()[file];
        let Range { start: mut at, end } = bytes;
        while at < end {
            let next = end.min(at + PART);
            let bytes = file.part(at..next)?;
            self.same()?;
            take(&bytes)?;
            at = next;
        }
        Ok(())
    }

    /// Whether the disk has a sector, or the refusal.
    pub fn holds(&mut self, sector: u64) -> Result<(), Failure> {
        match self {
            Given::Layers(layers) => layers.locate(sector).map(|_| ()),
            Given::Split(split) => split.holds(sector),
        }
    }

    /// How the disk is cut, once it is known to be one.
    pub fn grains(&mut self) -> Result<Grains, Failure> {
        match self {
            Given::Layers(layers) => layers.disk().map(Grains::of),
            Given::Split(split) => split.grains(),
        }
    }

    /// The same, for digests of grains or of sectors.
    pub fn cut(&mut self, grains: bool) -> Result<Grains, Failure> {
        let cut = self.grains()?;
        match (self, cut.size()) {
            (Given::Split(split), None) if grains => Err(split.without_grains()),
            _ => Ok(cut),
        }
    }

    /// Where a sector comes from, or the refusal. The layer of a disk of several files is the extent.
    pub fn locate(&mut self, sector: u64) -> Result<Located, Failure> {
        match self {
            Given::Layers(layers) => layers.locate(sector),
            Given::Split(split) => split.locate(sector),
        }
    }

    /// What the layers below the one that a sector comes from have there. Extents hide nothing of each other.
    pub fn below(&self, found: &Located, sector: u64) -> Result<Vec<Located>, Failure> {
        let layers = match self {
            Given::Layers(layers) => layers,
            Given::Split(_) => return Ok(Vec::new()),
        };
        let located = |layer| {
            let source = anhkhovet::lookup(layers.bytes(layer), sector);
            let source = source.map_err(Failure::refused(layers.path(layer)))?;
            Ok(Located { layer, source })
        };
        (0..found.layer).map(located).collect()
    }

    /// The own bytes of each layer or extent, and its grain size where it is an image.
    pub fn parts(&self, cut: &Grains) -> Vec<(&[u8], Option<u64>)> {
        match self {
            Given::Layers(layers) => {
                let layers = (0..layers.count() as u64).map(|layer| layers.bytes(layer));
                layers.map(|own| (own, cut.size())).collect()
            }
            Given::Split(split) => split.parts(),
        }
    }

    /// Where the bytes of `sectors` from `first` on are, all of them of one grain, stored or packed as was found.
    pub fn place(&self, found: &Located, first: u64, sectors: u64) -> Place {
        match self {
            Given::Layers(layers) => Place {
                file: found.layer as usize,
                bytes: layers.row(found.layer, first, sectors),
            },
            Given::Split(split) => split.place(found, first, sectors),
        }
    }

    /// What its files are called.
    pub fn word(&self) -> &'static str {
        match self {
            Given::Layers(_) => "layer",
            Given::Split(_) => "extent",
        }
    }

    pub fn holder(&self, found: &Located) -> Holder {
        let number = found.layer;
        match self {
            Given::Layers(layers) => Holder {
                number,
                file: Some(layers.path(number).to_path_buf()),
                chain: layers.count() > 1,
            },
            Given::Split(split) => Holder {
                number,
                file: split.disk.path(number as usize),
                chain: false,
            },
        }
    }

    /// The members that name the files, `files`, or `file` and `extents`, and the remarks.
    pub fn tell_files(&self, object: &mut Object) -> Result<(), Failure> {
        match self {
            Given::Layers(layers) => object.members(names::listed("files", layers.paths()))?,
            Given::Split(split) => split.tell_files(object)?,
        }
        object.members(self.remarks())
    }
}
