//! Outputs: written beside their final name, renamed when whole, removed otherwise.

use crate::cli::Target;
use crate::failure::Failure;
use crate::guard::{Doomed, Watch};
use crate::kept::keep;
use crate::mapping::Mapping;
use crate::place::Place;
use crate::signals;
use crate::writeback::Writeback;
use std::ffi::CString;
use std::fs::File;
use std::io::{self, Write};
use std::mem::zeroed;
use std::ops::Range;
use std::os::unix::fs::FileExt;
use std::os::unix::io::AsRawFd;
use std::path::PathBuf;
use std::slice;

const UNWRITTEN: &str = "cannot be written, so there is no output";

/// A file under a name of its own, which goes unless it is finished.
pub struct Output {
    // Before the place, whose folder it needs.
    doomed: Option<Doomed>,
    place: Place,
    part: CString,
    file: File,
}

/// An output as memory.
pub struct Mapped {
    output: Output,
    pub map: Mapping,
    _watch: Watch,
    _writeback: Writeback,
}

impl Output {
    /// Whatever can be known to stand in the way is told here: before the work.
    pub fn create(target: &Target, inputs: &[PathBuf]) -> Result<Output, Failure> {
        let place = Place::of(target, inputs)?;
        // Not for a moment is it open to more people than what it replaces.
        let mode = place.replaced()?.map_or(0o666, |_| 0o600);
        let (file, part, doomed) = signals::held_back(|| begin(&place, mode))
            .map_err(Failure::system(&place.path, "cannot be created"))?;
        Ok(Output {
            doomed: Some(doomed),
            place,
            part,
            file,
        })
    }

    pub fn write(&mut self, bytes: &[u8]) -> Result<(), Failure> {
        self.file
            .write_all(bytes)
            .map_err(Failure::system(&self.place.path, "cannot be written"))
    }

    /// Another handle of the file.
    pub fn file(&self) -> Result<File, Failure> {
        self.file
            .try_clone()
            .map_err(Failure::system(&self.place.path, "cannot be read"))
    }

    /// Whether nobody misses so many bytes on the disk for a while.
    pub fn is_little(&self, length: u64) -> bool {
        free(&self.file).map_or(false, |free| length <= free / 16)
    }

    /// Gives it this length, and room on the disk where the file system can promise that.
    pub fn reserve(&self, length: u64) -> Result<(), Failure> {
        self.reserve_parts(length, slice::from_ref(&(0..length)))
    }

    /// The same with room for some parts alone: what is between them is going to be holes.
    pub fn reserve_parts(&self, length: u64, parts: &[Range<u64>]) -> Result<(), Failure> {
        let path = &self.place.path;
        let needed = parts.iter().map(|part| part.end - part.start).sum();
        reserve(&self.file, length, parts, needed).map_err(|error| match error.raw_os_error() {
            Some(libc::ENOSPC | libc::EDQUOT) => Failure::unfit(
                path,
                format!(
                    "the disk is full: it has no room for {needed} bytes, so there is no output"
                ),
            ),
            _ => Failure::System(path.clone(), UNWRITTEN, error),
        })
    }

    /// Bytes to their place in what was reserved.
    pub fn put(&self, at: u64, bytes: &[u8]) -> Result<(), Failure> {
        self.file
            .write_all_at(bytes, at)
            .map_err(Failure::system(&self.place.path, UNWRITTEN))
    }

    /// The same unless they are there already, so that a hole stays one.
    pub fn settle(&self, at: u64, bytes: &[u8]) -> Result<(), Failure> {
        let mut there = vec![0; bytes.len()];
        self.file
            .read_exact_at(&mut there, at)
            .map_err(Failure::system(&self.place.path, UNWRITTEN))?;
        if there == bytes {
            return Ok(());
        }
        self.put(at, bytes)
    }

    /// As memory, of the length that it has.
    pub fn map(self, length: u64) -> Result<Mapped, Failure> {
        let path = &self.place.path;
        let map = usize::try_from(length)
            .map_err(|_| io::ErrorKind::OutOfMemory.into())
            .and_then(|length| Mapping::shared(&self.file, length))
            .map_err(Failure::system(path, UNWRITTEN))?;
        let full = Failure::unfit(
            path,
            "the disk is full or failed while this was written, so there is no output",
        );
        let watch = Watch::new(map.start(), map.length(), &full.to_string());
        Ok(Mapped {
            _writeback: Writeback::of(self.file()?),
            output: self,
            map,
            _watch: watch,
        })
    }

    /// Under its final name, once its bytes are safely written.
    pub fn finish(mut self) -> Result<(), Failure> {
        let path = self.place.path.clone();
        if self.place.force {
            // It may be another one by now.
            if let Some(replaced) = self.place.replaced()? {
                keep(&self.file, &replaced, &path).map_err(Failure::system(
                    &path,
                    "cannot get the mode of what it replaces",
                ))?;
            }
        }
        self.file
            .sync_all()
            .and_then(|()| self.rename())
            .map_err(|error| match error.kind() {
                io::ErrorKind::AlreadyExists => Failure::unfit(
                    &path,
                    "was made by somebody else meanwhile; --force replaces it",
                ),
                _ => Failure::System(path.clone(), "cannot be written", error),
            })?;
        self.doomed = None;
        let told = "is written, but a crash of the machine may still undo that";
        self.place
            .folder
            .sync()
            .map_err(Failure::system(&path, told))
    }

    fn rename(&self) -> io::Result<()> {
        let Place {
            folder,
            name,
            force,
            ..
        } = &self.place;
        if *force {
            folder.replace(&self.part, name)
        } else {
            folder.rename(&self.part, name)
        }
    }
}

impl Drop for Output {
    fn drop(&mut self) {
        if self.doomed.is_some() {
            let _ = self.place.folder.remove(&self.part);
        }
    }
}

/// A new file, its name, and the promise to remove it. No signal may come between: the file would stay.
fn begin(place: &Place, mode: u32) -> io::Result<(File, CString, Doomed)> {
    loop {
        let part = place.part_name()?;
        match place.folder.create(&part, mode) {
            Ok(file) => {
                let doomed = Doomed::new(place.folder.number(), part.clone());
                return Ok((file, part, doomed));
            }
            // Left by a run that was killed, whose number has come round again: the next name is free.
            Err(error) if error.kind() == io::ErrorKind::AlreadyExists => {}
            Err(error) => return Err(error),
        }
    }
}

fn reserve(file: &File, length: u64, parts: &[Range<u64>], needed: u64) -> io::Result<()> {
    if free(file).map_or(false, |free| free < needed) {
        return Err(io::Error::from_raw_os_error(libc::ENOSPC));
    }
    file.set_len(length)?;
    for part in parts {
        let (start, long) = (part.start, part.end - part.start);
        // SAFETY: a plain call on an open file, inside of its length.
        let status = unsafe { libc::fallocate(file.as_raw_fd(), 0, start as _, long as _) };
        if status != 0 {
            let error = io::Error::last_os_error();
            return match error.raw_os_error() {
                Some(libc::EOPNOTSUPP | libc::ENOSYS) => Ok(()),
                _ => Err(error),
            };
        }
    }
    Ok(())
}

/// The bytes that are free, where the file system knows. Asking for more would take all of them for a moment, from everybody.
fn free(file: &File) -> Option<u64> {
    // SAFETY: the facts are written over one struct of theirs.
    let (status, facts) = unsafe {
        let mut facts: libc::statvfs64 = zeroed();
        (libc::fstatvfs64(file.as_raw_fd(), &mut facts), facts)
    };
    let known = status == 0 && facts.f_blocks > 0;
    known.then(|| facts.f_bfree.saturating_mul(facts.f_frsize))
}

impl Mapped {
    /// A file again, of the result's length.
    pub fn cut(self, length: u64) -> Result<Output, Failure> {
        let Mapped { output, map, .. } = self;
        drop(map);
        output
            .file
            .set_len(length)
            .map_err(Failure::system(&output.place.path, "cannot be written"))?;
        Ok(output)
    }
}
