//! The files of one command, as the library gets them: own bytes, several files end to end in one range, base first.

use crate::alike::{disk, refusal};
use crate::cowd;
use crate::entries::{self, Unsure, CHECK, MEND};
use crate::failure::Failure;
use crate::frame;
use crate::layer::Layer;
use crate::own::Own;
use crate::parents::Strangers;
use anhkhovet::{Area, ChainRefusal, Disk, Group, Located, Side};
use std::fs::File;
use std::ops::Range;
use std::path::{Path, PathBuf};
use std::sync::Arc;

/// Opened files, for threads that read grains too.
pub type Files = Vec<Arc<Layer>>;

pub struct Layers {
    files: Files,
    lengths: Vec<u64>,
    own: Own,
    parts: Vec<Part>,
    strangers: Strangers,
}

/// One file's part of the own bytes.
struct Part {
    bytes: Range<usize>,
    /// Its areas; none where the frame is refused.
    frame: Vec<Area>,
    /// The frame is refused 8: a lookup may have an answer all the same, and then reads more than was copied.
    broken: bool,
    /// The tables whose packed grains have their markers copied.
    marked: &'static [Group],
}

impl Layers {
    pub fn open(paths: &[PathBuf]) -> Result<Layers, Failure> {
        let files: Result<Vec<_>, _> = paths.iter().map(|path| Layer::open(path)).collect();
        let mut layers = Layers::of(files?)?;
        layers.strangers = Strangers::among(&[&layers]);
        Ok(layers)
    }

    pub fn one(path: &Path) -> Result<Layers, Failure> {
        Layers::of(vec![Layer::open(path)?])
    }

    /// One layer, of a file that is open already.
    pub fn of_file(path: &Path, file: File) -> Result<Layers, Failure> {
        Layers::of(vec![Layer::of(path, file)?])
    }

    /// Of files that are open already, what decides copied.
    pub fn of(files: Vec<Layer>) -> Result<Layers, Failure> {
        Layers::framed(files, anhkhovet::frame)
    }

    /// An image that is to be moved, or was: COWD too, which nothing but a move takes.
    pub fn to_move(file: Layer) -> Result<Layers, Failure> {
        Layers::framed(vec![file], cowd::frame)
    }

    fn framed(
        files: Vec<Layer>,
        frame: fn(&[u8]) -> Result<Vec<Area>, anhkhovet::Refusal>,
    ) -> Result<Layers, Failure> {
        let mut layers = Layers::laid_out(files)?;
        for (file, part) in layers.files.iter().zip(&mut layers.parts) {
            let own = &mut layers.own.bytes_mut()[part.bytes.clone()];
            match frame::copy(file, own, frame)? {
                Ok(areas) => part.frame = areas,
                Err(refusal) => part.broken = refusal.number == 8,
            }
        }
        Ok(layers)
    }

    /// A file of plain sectors: its length decides, and none of its bytes.
    pub fn plain(file: Layer) -> Result<Layers, Failure> {
        Layers::laid_out(vec![file])
    }

    /// Own bytes for all files end to end, with nothing copied.
    fn laid_out(files: Vec<Layer>) -> Result<Layers, Failure> {
        let mut parts = Vec::new();
        let mut total = 0isize;
        for file in &files {
            let start = total;
            total = isize::try_from(file.length())
                .ok()
                .and_then(|length| total.checked_add(length))
                .ok_or_else(|| Failure::unfit(&file.path, "is too long to be mapped"))?;
            parts.push(Part {
                bytes: start as usize..total as usize,
                frame: Vec::new(),
                broken: false,
                marked: &[],
            });
        }
        let own = Own::new(total as usize).map_err(|error| {
            let longest = files.iter().max_by_key(|file| file.length());
            let path = longest.map_or_else(PathBuf::new, |file| file.path.clone());
            Failure::System(path, "is too long to be mapped", error)
        })?;
        Ok(Layers {
            lengths: files.iter().map(Layer::length).collect(),
            files: files.into_iter().map(Arc::new).collect(),
            own,
            parts,
            strangers: Strangers::default(),
        })
    }

    pub fn count(&self) -> usize {
        self.files.len()
    }

    pub fn path(&self, layer: u64) -> &Path {
        &self.files[layer as usize].path
    }

    pub fn paths(&self) -> impl Iterator<Item = &Path> {
        self.files.iter().map(|file| file.path.as_path())
    }

    /// The files themselves.
    pub fn files(&self) -> Files {
        self.files.clone()
    }

    pub fn file(&self, layer: u64) -> &File {
        &self.files[layer as usize].file
    }

    /// The own bytes of one layer: as many as the file has, zero where they decide nothing.
    pub fn bytes(&self, layer: u64) -> &[u8] {
        &self.own.bytes()[self.parts[layer as usize].bytes.clone()]
    }

    /// The same, to be looked at with something changed.
    pub fn bytes_mut(&mut self, layer: u64) -> &mut [u8] {
        &mut self.own.bytes_mut()[self.parts[layer as usize].bytes.clone()]
    }

    /// Copies a part of a layer's file, as far as it has it, beside what decides.
    pub fn copy(&mut self, layer: u64, part: Range<u64>) -> Result<(), Failure> {
        let end = part.end.min(self.lengths[layer as usize]);
        let start = part.start.min(end);
        let file = self.files[layer as usize].clone();
        let own = &mut self.bytes_mut(layer)[start as usize..end as usize];
        file.copy(start, own)
    }

    /// The areas of one layer that are copied; none where the check refuses the layer with 1 to 8.
    pub fn frame(&self, layer: u64) -> &[Area] {
        &self.parts[layer as usize].frame
    }

    /// The layers of a chain that are no parent and child by their texts.
    pub fn strangers(&self) -> &Strangers {
        &self.strangers
    }

    /// Where the grain reader's bytes for a sector are in the layer's file: none for what is neither stored nor packed.
    pub fn place(&self, layer: u64, sector: u64) -> Range<u64> {
        let place = anhkhovet::read_part(self.bytes(layer), sector);
        place.start as u64..place.end as u64
    }

    /// The same of `sectors` from `first` on, all of one grain.
    pub fn row(&self, layer: u64, first: u64, sectors: u64) -> Range<u64> {
        self.place(layer, first).start..self.place(layer, first + sectors - 1).end
    }

    /// To be asked after reading and before telling.
    pub fn same(&self) -> Result<(), Failure> {
        same(&self.files)
    }

    /// A call that judges all grains of a layer. Markers of packed grains are copied where they decide.
    pub fn ask<T>(
        &mut self,
        layer: u64,
        call: impl Fn(&[u8]) -> Result<T, anhkhovet::Refusal>,
    ) -> Result<Result<T, anhkhovet::Refusal>, Failure> {
        self.sure(layer, CHECK, |own| call(own))
    }

    /// Mends the own bytes of the only layer, and says how many entries differed: their changes are in the list.
    pub fn mend(
        &mut self,
        good: Side,
        list: &mut [u64],
    ) -> Result<Result<u64, anhkhovet::Refusal>, Failure> {
        self.sure(0, MEND, |own| anhkhovet::mend(own, good, list))
    }

    fn sure<T>(
        &mut self,
        layer: u64,
        unsure: Unsure,
        mut call: impl FnMut(&mut [u8]) -> Result<T, anhkhovet::Refusal>,
    ) -> Result<Result<T, anhkhovet::Refusal>, Failure> {
        let part = &mut self.parts[layer as usize];
        let own = &mut self.own.bytes_mut()[part.bytes.clone()];
        let answer = call(own);
        let wanting = matches!(&answer, Err(refusal) if unsure.numbers.contains(&refusal.number));
        if !wanting || part.marked == unsure.tables || !entries::packed(own) {
            return Ok(answer);
        }
        let named = |area: &&Area| unsure.tables.contains(&area.group);
        let tables = part.frame.iter().filter(named);
        entries::copy_markers(&self.files[layer as usize], own, tables)?;
        part.marked = unsure.tables;
        Ok(call(own))
    }

    /// Where a sector comes from, or the refusal.
    pub fn locate(&mut self, sector: u64) -> Result<Located, Failure> {
        self.widen()?;
        let mut found = self.search(sector);
        if let Err(ChainRefusal { refusal, layer }) = found {
            if matches!(refusal.number, 9 | 10) {
                self.mark(layer, refusal.place)?;
                found = self.search(sector);
            }
        }
        found.or_else(|refused| {
            self.same()?;
            Err(Failure::Refused(refusal(self, &refused)))
        })
    }

    /// The same by what is copied already.
    pub fn search(&self, sector: u64) -> Result<Located, ChainRefusal> {
        if self.files.len() == 1 {
            let layer = 0;
            anhkhovet::lookup(self.own.bytes(), sector)
                .map(|source| Located { layer, source })
                .map_err(|refusal| ChainRefusal { refusal, layer })
        } else {
            anhkhovet::chain(self.own.bytes(), &self.lengths, sector)
        }
    }

    /// Copies what lookups read of each file whose frame is refused 8, once.
    fn widen(&mut self) -> Result<(), Failure> {
        for (file, part) in self.files.iter().zip(&mut self.parts) {
            if part.broken {
                entries::copy_tables(file, &mut self.own.bytes_mut()[part.bytes.clone()])?;
                part.broken = false;
            }
        }
        Ok(())
    }

    /// Copies the marker of one grain, if it is packed.
    fn mark(&mut self, layer: u64, grain: u64) -> Result<(), Failure> {
        let part = &self.parts[layer as usize];
        let own = &mut self.own.bytes_mut()[part.bytes.clone()];
        entries::copy_marker(&self.files[layer as usize], own, grain)
    }

    /// Capacity and grain size, once the chain is known to have one of each.
    pub fn disk(&mut self) -> Result<Disk, Failure> {
        self.locate(0)?;
        disk(self.bytes(0)).map_err(Failure::refused(self.path(0)))
    }
}

pub fn same(files: &[Arc<Layer>]) -> Result<(), Failure> {
    files.iter().try_for_each(|file| file.same())
}
