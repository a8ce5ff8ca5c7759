//! Files as memory. The declarations are those of x86-64 Linux; the only other `unsafe` is in timing.rs and machine.rs.
//!
//! The memory behind a map is its file's: a file that another program cuts would end this one. The files are this
//! program's own, in a folder that nobody else may enter.

use std::fs::File;
use std::io;
use std::ops::{Deref, DerefMut};
use std::os::raw::{c_int, c_void};
use std::os::unix::io::AsRawFd;
use std::ptr::null_mut;
use std::slice::{from_raw_parts, from_raw_parts_mut};

extern "C" {
    fn mmap(
        wanted: *mut c_void,
        length: usize,
        protection: c_int,
        flags: c_int,
        file: c_int,
        offset: i64,
    ) -> *mut c_void;
    fn munmap(at: *mut c_void, length: usize) -> c_int;
    fn madvise(at: *mut c_void, length: usize, advice: c_int) -> c_int;
}

const PROT_READ: c_int = 1;
const PROT_WRITE: c_int = 2;
const MAP_SHARED: c_int = 1;
const MADV_RANDOM: c_int = 1;

/// A whole file, to be read.
pub struct Map {
    at: *mut u8,
    length: usize,
}

/// A whole file, to be read and written.
pub struct MapMut(Map);

impl Map {
    pub fn new(file: &File) -> io::Result<Map> {
        Map::with(file, PROT_READ)
    }

    /// For reads at random: a page that is touched brings none of those after it along.
    pub fn scattered(file: &File) -> io::Result<Map> {
        let map = Map::new(file)?;
        // SAFETY: advice on a map of this length; it changes no byte. Where it is not taken, all works but slower.
        unsafe { madvise(map.at.cast(), map.length, MADV_RANDOM) };
        Ok(map)
    }

    fn with(file: &File, protection: c_int) -> io::Result<Map> {
        let length = file.metadata()?.len() as usize;
        // SAFETY: a new map at a place that the system chooses touches no memory of this program.
        let at = unsafe {
            mmap(
                null_mut(),
                length,
                protection,
                MAP_SHARED,
                file.as_raw_fd(),
                0,
            )
        };
        if at as isize == -1 {
            return Err(io::Error::last_os_error());
        }
        Ok(Map {
            at: at.cast(),
            length,
        })
    }
}

impl MapMut {
    /// The file is open for both reading and writing.
    pub fn new(file: &File) -> io::Result<MapMut> {
        Ok(MapMut(Map::with(file, PROT_READ | PROT_WRITE)?))
    }
}

impl Deref for Map {
    type Target = [u8];
    fn deref(&self) -> &[u8] {
        // SAFETY: the map has this length, is readable, and lives as long as `self`.
        unsafe { from_raw_parts(self.at, self.length) }
    }
}

impl Deref for MapMut {
    type Target = [u8];
    fn deref(&self) -> &[u8] {
        &self.0
    }
}

impl DerefMut for MapMut {
    fn deref_mut(&mut self) -> &mut [u8] {
        // SAFETY: as above, and writable; `self` is lent exclusively and no other map is made of a file that is written.
        unsafe { from_raw_parts_mut(self.0.at, self.0.length) }
    }
}

impl Drop for Map {
    fn drop(&mut self) {
        // SAFETY: made by `with` with this length, and nothing borrows from it any more.
        unsafe { munmap(self.at.cast(), self.length) };
    }
}

#[test]
fn written_through_a_map_and_read_through_another() -> io::Result<()> {
    let folder = crate::folder::Folder::new(&std::env::temp_dir())?;
    let file = folder.create("map", 10_000)?;
    let mut written = MapMut::new(&file)?;
    assert_eq!(written.len(), 10_000);
    written[9_999] = 7;
    drop(written);
    assert_eq!(Map::new(&file)?[9_990..], [0, 0, 0, 0, 0, 0, 0, 0, 0, 7]);
    assert!(Map::new(&folder.create("empty", 0)?).is_err());
    Ok(())
}
