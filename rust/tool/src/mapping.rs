//! Files as memory, at multiples of 2 MiB: only there can the system serve a large page by one fault. Elsewhere it marks the
//! whole large page as written at each of its 512 small ones, which takes ten times as long.

use std::fs::File;
use std::io;
use std::os::unix::io::AsRawFd;
use std::{ptr, slice};

const LARGE_PAGE: usize = 2 << 20;

/// All of `length` bytes at `start` are mapped, readable and writable, and unmapped when this goes.
pub struct Mapping {
    start: *mut u8,
    length: usize,
    /// The address space that was reserved, around them.
    reserved: (*mut u8, usize),
}

fn mapped(
    at: *mut u8,
    length: usize,
    protection: libc::c_int,
    flags: libc::c_int,
    file: libc::c_int,
) -> io::Result<*mut u8> {
    // SAFETY: either the kernel chooses a free place, or it is one that `Mapping::new` has reserved just now.
    let start = unsafe { libc::mmap(at as *mut libc::c_void, length, protection, flags, file, 0) };
    if start == libc::MAP_FAILED {
        Err(io::Error::last_os_error())
    } else {
        Ok(start as *mut u8)
    }
}

impl Mapping {
    /// A file's bytes, of which those that are written over become the tool's own, and the file keeps its.
    pub fn private(file: &File, length: usize) -> io::Result<Mapping> {
        Mapping::new(file, length, libc::MAP_PRIVATE | libc::MAP_NORESERVE)
    }

    /// A file to be written.
    pub fn shared(file: &File, length: usize) -> io::Result<Mapping> {
        Mapping::new(file, length, libc::MAP_SHARED)
    }

    fn new(file: &File, length: usize, flags: libc::c_int) -> io::Result<Mapping> {
        let room = length
            .checked_add(LARGE_PAGE)
            .ok_or(io::ErrorKind::OutOfMemory)?;
        let nothing = libc::MAP_PRIVATE | libc::MAP_ANONYMOUS | libc::MAP_NORESERVE;
        let free = mapped(ptr::null_mut(), room, libc::PROT_NONE, nothing, -1)?;
        let mapping = Mapping {
            start: free.wrapping_add(free.align_offset(LARGE_PAGE)),
            length,
            reserved: (free, room),
        };
        mapped(
            mapping.start,
            length,
            libc::PROT_READ | libc::PROT_WRITE,
            flags | libc::MAP_FIXED,
            file.as_raw_fd(),
        )?;
        Ok(mapping)
    }

    pub fn start(&self) -> *const u8 {
        self.start
    }

    pub fn length(&self) -> usize {
        self.length
    }

    /// # Safety
    ///
    /// The file may change under the slice. So it is only for a reader to which those bytes may be anything at any time.
    pub unsafe fn bytes(&self) -> &[u8] {
        slice::from_raw_parts(self.start, self.length)
    }

    /// # Safety
    ///
    /// As `bytes`, if anybody else has the file: the bytes may not be what was written there.
    pub unsafe fn bytes_mut(&mut self) -> &mut [u8] {
        slice::from_raw_parts_mut(self.start, self.length)
    }

    /// Writes bytes to their place; false where they have none here.
    pub fn put(&mut self, at: usize, bytes: &[u8]) -> bool {
        let inside = at <= self.length && bytes.len() <= self.length - at;
        if inside {
            // SAFETY: the place lies in the mapping, and no slice of it is lent meanwhile, since `self` is not.
            unsafe { ptr::copy_nonoverlapping(bytes.as_ptr(), self.start.add(at), bytes.len()) };
        }
        inside
    }
}

impl Drop for Mapping {
    fn drop(&mut self) {
        let (start, length) = self.reserved;
        // SAFETY: the range is ours, and every slice of it borrows from this.
        unsafe { libc::munmap(start as *mut libc::c_void, length) };
    }
}
