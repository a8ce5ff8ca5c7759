//! Memory of the tool's own: as long as the files, or for a list. The library is lent nothing else: it is proved over bytes
//! that stand still, and those of a file may be written by anyone while it reads.

use std::io;
use std::{ptr, slice};

/// Zero bytes at first. What is never written takes no memory, so that terabytes cost nothing.
pub struct Own {
    start: *mut u8,
    length: usize,
}

impl Own {
    /// Of which little is going to be written, here and there.
    pub fn new(length: usize) -> io::Result<Own> {
        // A large page for each table that stands alone would take 2 MiB.
        Own::mapped(length, libc::MAP_NORESERVE, libc::MADV_NOHUGEPAGE)
    }

    /// All of which is going to be written: it is an error where the system knows that there is no room for it.
    pub fn whole(length: usize) -> io::Result<Own> {
        Own::mapped(length, 0, libc::MADV_HUGEPAGE)
    }

    fn mapped(length: usize, reserve: libc::c_int, advice: libc::c_int) -> io::Result<Own> {
        if length == 0 {
            let start = ptr::NonNull::<u64>::dangling().as_ptr() as *mut u8;
            return Ok(Own { start, length });
        }
        let protection = libc::PROT_READ | libc::PROT_WRITE;
        let flags = libc::MAP_PRIVATE | libc::MAP_ANONYMOUS | reserve;
        // SAFETY: the kernel chooses a free place.
        let start = unsafe { libc::mmap(ptr::null_mut(), length, protection, flags, -1, 0) };
        if start == libc::MAP_FAILED {
            return Err(io::Error::last_os_error());
        }
        // SAFETY: advice about a range that is ours.
        unsafe { libc::madvise(start, length, advice) };
        Ok(Own {
            start: start as *mut u8,
            length,
        })
    }

    pub fn bytes(&self) -> &[u8] {
        // SAFETY: anonymous memory of that length, or none. It is this value's alone, so what borrows it is all there is.
        unsafe { slice::from_raw_parts(self.start, self.length) }
    }

    pub fn bytes_mut(&mut self) -> &mut [u8] {
        // SAFETY: as above.
        unsafe { slice::from_raw_parts_mut(self.start, self.length) }
    }

    /// The same as whole words.
    pub fn words(&self) -> &[u64] {
        // SAFETY: as above, and memory begins at a page.
        unsafe { slice::from_raw_parts(self.start as *const u64, self.length / 8) }
    }

    pub fn words_mut(&mut self) -> &mut [u64] {
        // SAFETY: as above.
        unsafe { slice::from_raw_parts_mut(self.start as *mut u64, self.length / 8) }
    }
}

impl Drop for Own {
    fn drop(&mut self) {
        if self.length > 0 {
            // SAFETY: the range is ours, and every slice of it borrows from this value.
            unsafe { libc::munmap(self.start as *mut libc::c_void, self.length) };
        }
    }
}
