//! One opened file: what it was at its opening, and bytes read from it.

use crate::failure::Failure;
use std::fs::{self, File, FileType, Metadata, OpenOptions};
use std::io;
use std::ops::Range;
use std::os::unix::fs::{FileExt, FileTypeExt, MetadataExt, OpenOptionsExt};
use std::os::unix::io::AsRawFd;
use std::path::{Path, PathBuf};
use std::thread::sleep;
use std::time::Duration;

pub struct Layer {
    pub path: PathBuf,
    pub file: File,
    facts: Facts,
}

/// What shows that a file was written. Its owner can put back the time of modification, but not that of the last change.
#[derive(Clone, Copy, PartialEq, Eq)]
struct Facts {
    length: u64,
    modified: (i64, i64),
    changed: (i64, i64),
}

pub const UNOPENED: &str = "cannot be opened";

const TICK: Duration = Duration::from_millis(1);
/// Longer than the clock by which files are stamped takes to go on.
const STILL: u32 = 20;
const PATIENCE: u32 = 100;

/// Parts of at most this many bytes are not looked at for holes.
const SHORT: usize = 1 << 16;

impl Facts {
    fn of(facts: &Metadata) -> Facts {
        Facts {
            length: facts.len(),
            modified: (facts.mtime(), facts.mtime_nsec()),
            changed: (facts.ctime(), facts.ctime_nsec()),
        }
    }
}

impl Layer {
    pub fn open(path: &Path) -> Result<Layer, Failure> {
        there(path)?;
        Layer::opened(path, path, libc::O_NONBLOCK)
    }

    /// The file that `path` was found to lead to, which is no link.
    pub fn open_found(path: &Path, found: &Path) -> Result<Layer, Failure> {
        Layer::opened(path, found, libc::O_NONBLOCK | libc::O_NOFOLLOW)
    }

    fn opened(path: &Path, found: &Path, flags: libc::c_int) -> Result<Layer, Failure> {
        let file = OpenOptions::new()
            .read(true)
            .custom_flags(flags)
            .open(found)
            .map_err(Failure::system(path, UNOPENED))?;
        Layer::of(path, file)
    }

    pub fn of(path: &Path, file: File) -> Result<Layer, Failure> {
        let facts = look(path, &file)?;
        plain(path, facts.file_type())?;
        let mut layer = Layer {
            path: path.to_path_buf(),
            file,
            facts: Facts::of(&facts),
        };
        layer.settle()?;
        Ok(layer)
    }

    /// Waits until the clock has gone on since the last change: only then does the next one get another time.
    fn settle(&mut self) -> Result<(), Failure> {
        let mut still = 0;
        for _ in 0..PATIENCE {
            // A time that is ahead of the clock, which was set back then, is no other one for that.
            if self.facts.changed < clock() || still >= STILL {
                return Ok(());
            }
            sleep(TICK);
            let facts = Facts::of(&look(&self.path, &self.file)?);
            still = if facts == self.facts { still + 1 } else { 0 };
            self.facts = facts;
        }
        Err(Failure::changed(&self.path))
    }

    pub fn length(&self) -> u64 {
        self.facts.length
    }

    /// Whether length and times are what they were at the opening.
    pub fn same(&self) -> Result<(), Failure> {
        if Facts::of(&look(&self.path, &self.file)?) == self.facts {
            Ok(())
        } else {
            Err(Failure::changed(&self.path))
        }
    }

    /// A part of the file, read now.
    pub fn part(&self, part: Range<u64>) -> Result<Vec<u8>, Failure> {
        let mut bytes = vec![0; (part.end - part.start) as usize];
        self.read(part.start, &mut bytes)?;
        Ok(bytes)
    }

    /// Fills `to` with the file's bytes from `at` on.
    pub fn read(&self, at: u64, to: &mut [u8]) -> Result<(), Failure> {
        self.file
            .read_exact_at(to, at)
            .map_err(|error| match error.kind() {
                // It was longer before.
                io::ErrorKind::UnexpectedEof => Failure::changed(&self.path),
                _ => Failure::System(self.path.clone(), "cannot be read", error),
            })
    }

    /// The same over bytes that are zero: holes in what is long are left out, so that they cost nothing.
    pub fn copy(&self, at: u64, to: &mut [u8]) -> Result<(), Failure> {
        if to.len() <= SHORT {
            return self.read(at, to);
        }
        self.copy_data(at, to)
    }

    /// The same with all holes left out.
    pub fn copy_data(&self, at: u64, to: &mut [u8]) -> Result<(), Failure> {
        for data in self.data(at..at + to.len() as u64) {
            let part = (data.start - at) as usize..(data.end - at) as usize;
            self.read(data.start, &mut to[part])?;
        }
        Ok(())
    }

    /// The parts of a part that are no holes, in order.
    pub fn data(&self, part: Range<u64>) -> impl Iterator<Item = Range<u64>> + '_ {
        let Range { start: mut at, end } = part;
        std::iter::from_fn(move || {
            let data = self.next_data(at..end);
            at = data.end;
            Some(data).filter(|data| !data.is_empty())
        })
    }

    fn next_data(&self, part: Range<u64>) -> Range<u64> {
        let end = part.end;
        let data = match self.seek(part.start, libc::SEEK_DATA) {
            Ok(data) => data.min(end),
            Err(error) if error.raw_os_error() == Some(libc::ENXIO) => end,
            // A file system that knows no holes.
            Err(_) => part.start,
        };
        match self.seek(data, libc::SEEK_HOLE) {
            Ok(hole) if hole > data => data..hole.min(end),
            _ => data..end,
        }
    }

    fn seek(&self, at: u64, to: libc::c_int) -> io::Result<u64> {
        // SAFETY: a plain call on an open file.
        let found = unsafe { libc::lseek(self.file.as_raw_fd(), at as libc::off_t, to) };
        u64::try_from(found).map_err(|_| io::Error::last_os_error())
    }
}

/// Anything but a plain file is told at once: it is neither opened nor waited for.
pub fn there(path: &Path) -> Result<(), Failure> {
    let facts = fs::metadata(path).map_err(Failure::system(path, UNOPENED))?;
    plain(path, facts.file_type())
}

fn look(path: &Path, file: &File) -> Result<Metadata, Failure> {
    file.metadata()
        .map_err(Failure::system(path, "cannot be looked at"))
}

fn plain(path: &Path, kind: FileType) -> Result<(), Failure> {
    let word = match kind {
        kind if kind.is_file() => return Ok(()),
        kind if kind.is_dir() => "folder",
        kind if kind.is_fifo() => "named pipe",
        kind if kind.is_socket() => "socket",
        _ => "device",
    };
    Err(Failure::unfit(
        path,
        format!("is a {word} and not a plain file, and only those can be read"),
    ))
}

/// The clock by which the kernel stamps files, in seconds and nanoseconds.
fn clock() -> (i64, i64) {
    let mut now = libc::timespec {
        tv_sec: 0,
        tv_nsec: 0,
    };
    // SAFETY: one record to be written. Without that clock it stays 0, and the wait is the longest one.
    unsafe { libc::clock_gettime(libc::CLOCK_REALTIME_COARSE, &mut now) };
    (now.tv_sec, now.tv_nsec)
}
