//! One extent of a disk of several files, with its file: judged as the library's `split` does, and then asked file by file.

use crate::checked::checked;
use crate::described::Described;
use crate::failure::{Failure, Refusal};
use crate::files::{same, Files, Layers};
use crate::hint::NOT_READ;
use crate::source::file_sector;
use crate::still_open::still_open;
use anhkhovet::{Access, ExtentKind, Source, SECTOR};
use std::ops::Range;

pub struct Member {
    /// The extent, from 0.
    pub number: usize,
    pub first: u64,
    pub sectors: u64,
    kind: ExtentKind,
    /// None for ZERO, for NOACCESS, whose file nobody is to look at, and for VMFSSPARSE, which is refused by its line alone.
    file: Option<Layers>,
    judged: Option<Judged>,
}

/// What an extent is once the library has judged it wholly.
enum Judged {
    /// An accepted image, and its grain size.
    Image(u64),
    /// Plain sectors, from this file sector on.
    Plain(u64),
    Zeros,
}

/// As many bytes has a magic.
const MAGIC: usize = 4;

/// The refusal of a file that is not of its extent's type.
const OTHER_TYPE: u64 = 45;

/// What the library's `split` says of a sector of an extent whose file has these bytes. Of the other files nothing decides, so
/// none of their bytes are lent: a law of the library has it (`own-file-alone` in crate `laws`).
fn split(
    disk: &Described,
    extent: usize,
    bytes: &[u8],
    sector: u64,
) -> Result<Source, anhkhovet::Refusal> {
    let mut lengths = vec![0; disk.extents.len()];
    lengths[extent] = bytes.len() as u64;
    anhkhovet::split(&disk.text.bytes, bytes, &lengths, sector)
        .map(|placed| placed.source)
        .map_err(|refused| refused.refusal)
}

impl Member {
    pub fn open(disk: &Described, number: usize) -> Result<Member, Failure> {
        let extent = &disk.extents[number];
        let file = match (extent.access, extent.kind) {
            (Access::None, _) | (_, ExtentKind::Zero | ExtentKind::VmfsSparse) => None,
            (_, ExtentKind::Flat | ExtentKind::Vmfs) => Some(Layers::plain(disk.open(number)?)?),
            (_, ExtentKind::Sparse) => Some(Layers::of(vec![disk.open(number)?])?),
        };
        Ok(Member {
            number,
            first: extent.first,
            sectors: extent.sectors,
            kind: extent.kind,
            file,
            judged: None,
        })
    }

    pub fn holds(&self, sector: u64) -> bool {
        self.first <= sector && sector - self.first < self.sectors
    }

    pub fn files(&self) -> Files {
        self.file.as_ref().map_or_else(Files::new, Layers::files)
    }

    /// The own bytes of the file, as many as it has; none without one.
    pub fn bytes(&self) -> &[u8] {
        self.file.as_ref().map_or(&[], |file| file.bytes(0))
    }

    /// The grain size, where it is an image that was judged.
    pub fn grain_size(&self) -> Option<u64> {
        match self.judged {
            Some(Judged::Image(size)) => Some(size),
            _ => None,
        }
    }

    /// Whether the disk was still open, where the file is an image.
    pub fn still_open(&self) -> Option<bool> {
        still_open(self.file.as_ref()?.bytes(0))
    }

    /// An answer on this extent, if the files that it is of are unchanged.
    fn told<T>(
        &self,
        disk: &Described,
        answer: Result<T, anhkhovet::Refusal>,
    ) -> Result<T, Failure> {
        disk.file.same()?;
        same(&self.files())?;
        answer.map_err(|why| {
            let path = match &self.file {
                Some(file) => Some(file.path(0).to_path_buf()),
                // It is named as what is to be moved.
                None => disk.path(self.number).filter(|_| why.number == NOT_READ),
            };
            Failure::Refused(Refusal::new(why, path.as_deref()))
        })
    }

    /// What the library's `split` says of a sector of this extent.
    fn split(&mut self, disk: &Described, sector: u64) -> Result<Source, Failure> {
        let number = self.number;
        let answer = match &mut self.file {
            None => split(disk, number, &[], sector),
            Some(file) => file.ask(0, |bytes| split(disk, number, bytes, sector))?,
        };
        self.told(disk, answer)
    }

    /// The grain size of an image that is accepted and has its line's capacity. The order is that of `split`: 45 for a COWD
    /// image, the check's numbers, 38 for another capacity. `split` itself tells 45 and 38.
    fn image(&mut self, disk: &Described) -> Result<Option<u64>, Failure> {
        let file = match (&mut self.file, self.kind) {
            (Some(file), ExtentKind::Sparse) => file,
            _ => return Ok(None),
        };
        // The magic alone decides on 45.
        let magic = &file.bytes(0)[..MAGIC.min(file.bytes(0).len())];
        let asked = split(disk, self.number, magic, self.first);
        if matches!(asked, Err(why) if why.number == OTHER_TYPE) {
            return Ok(None);
        }
        let answer = file.ask(0, checked)?;
        let image = self.told(disk, answer)?;
        Ok(Some(image.grain_size).filter(|_| image.capacity == self.sectors))
    }

    /// Judges the extent wholly: what its first sector is not refused for, none of its sectors is. An accepted image refuses
    /// none below its capacity, so that its first one need not be looked up.
    pub fn judge(&mut self, disk: &Described) -> Result<(), Failure> {
        self.judged = Some(match self.image(disk)? {
            Some(size) => Judged::Image(size),
            None => match self.split(disk, self.first)? {
                Source::Stored { sector } => Judged::Plain(sector),
                _ => Judged::Zeros,
            },
        });
        Ok(())
    }

    /// Where a sector of the disk that this extent holds comes from. Once the extent is judged, that is the lookup's answer on
    /// its file alone (`sparse-served` and its like in crate `laws`).
    pub fn locate(&mut self, disk: &Described, sector: u64) -> Result<Source, Failure> {
        let inside = sector - self.first;
        match (&self.judged, &self.file) {
            (Some(Judged::Image(_)), Some(file)) => {
                let found = anhkhovet::lookup(file.bytes(0), inside);
                found.map_err(Failure::refused(file.path(0)))
            }
            (Some(Judged::Plain(start)), _) => Ok(Source::Stored {
                sector: start + inside,
            }),
            (Some(_), _) => Ok(Source::Zero),
            (None, _) => self.split(disk, sector),
        }
    }

    /// Where the bytes of `sectors` from `first` on are in the file, all of them of one grain, with this source.
    pub fn place(&self, source: Source, first: u64, sectors: u64) -> Range<u64> {
        match (self.kind, &self.file) {
            (ExtentKind::Sparse, Some(file)) => file.row(0, first - self.first, sectors),
            _ => {
                let at = file_sector(source).unwrap_or(0);
                SECTOR * at..SECTOR * (at + sectors)
            }
        }
    }
}
