//! What must happen even if the process is stopped: a mapped file that is cut, or a disk that is full under a mapped output,
//! ends in a message and not in an answer, and no half-written output is left behind.
//!
//! A signal's handler may do little: it walks two lists that only ever grow, writes ready-made bytes, removes files and exits.

use crate::failure::Status;
use libc::{c_int, c_void};
use std::ffi::CString;
use std::ptr;
use std::sync::atomic::{AtomicBool, AtomicPtr, Ordering::SeqCst};

/// A range of mapped bytes and what to say when it can't be read or written.
struct Range {
    start: usize,
    end: usize,
    live: AtomicBool,
    message: String,
    object: String,
    next: *mut Range,
}

/// A file that must not stay, by its name in an open folder.
struct Temporary {
    folder: c_int,
    name: CString,
    live: AtomicBool,
    next: *mut Temporary,
}

static RANGES: AtomicPtr<Range> = AtomicPtr::new(ptr::null_mut());
static TEMPORARIES: AtomicPtr<Temporary> = AtomicPtr::new(ptr::null_mut());

/// Whether one JSON object is owed and none of it is printed yet.
static OBJECT_OWED: AtomicBool = AtomicBool::new(false);

pub fn owe_object(owed: bool) {
    OBJECT_OWED.store(owed, SeqCst);
}

pub fn object_owed() -> bool {
    OBJECT_OWED.load(SeqCst)
}

/// While it lives, a fault in the range is told by its message.
pub struct Watch(&'static Range);

/// While it lives, the file is removed if the process is stopped.
pub struct Doomed(&'static Temporary);

impl Watch {
    pub fn new(bytes: *const u8, length: usize, told: &str) -> Watch {
        let start = bytes as usize;
        let range = Box::leak(Box::new(Range {
            start,
            end: start + length,
            live: AtomicBool::new(true),
            message: format!("anhkhovet: {told}\n"),
            object: format!("{}\n", serde_json::json!({ "failed": told })),
            next: RANGES.load(SeqCst),
        }));
        RANGES.store(range, SeqCst);
        Watch(range)
    }
}

impl Drop for Watch {
    fn drop(&mut self) {
        self.0.live.store(false, SeqCst);
    }
}

impl Doomed {
    /// The folder stays open for as long as this lives.
    pub fn new(folder: c_int, name: CString) -> Doomed {
        let file = Box::leak(Box::new(Temporary {
            folder,
            name,
            live: AtomicBool::new(true),
            next: TEMPORARIES.load(SeqCst),
        }));
        TEMPORARIES.store(file, SeqCst);
        Doomed(file)
    }
}

impl Drop for Doomed {
    fn drop(&mut self) {
        self.0.live.store(false, SeqCst);
    }
}

// SAFETY for all below: unlinkat, write and _exit may be called in a handler; nodes are never freed or changed but for `live`.

/// Removes what must not stay. A second time does no harm.
pub unsafe fn remove_temporaries() {
    let mut node = TEMPORARIES.load(SeqCst);
    while let Some(file) = node.as_ref() {
        if file.live.load(SeqCst) {
            libc::unlinkat(file.folder, file.name.as_ptr(), 0);
        }
        node = file.next;
    }
}

unsafe fn write_all(to: c_int, text: &str) {
    let mut rest = text.as_bytes();
    while !rest.is_empty() {
        let count = libc::write(to, rest.as_ptr() as *const c_void, rest.len());
        if count <= 0 {
            return;
        }
        rest = &rest[count as usize..];
    }
}

/// Ends the process with the message of the range that the address lies in, if there is one.
pub unsafe fn tell_fault(at: usize) {
    let mut node = RANGES.load(SeqCst);
    while let Some(range) = node.as_ref() {
        if range.live.load(SeqCst) && range.start <= at && at < range.end {
            remove_temporaries();
            write_all(libc::STDERR_FILENO, &range.message);
            if OBJECT_OWED.load(SeqCst) {
                write_all(libc::STDOUT_FILENO, &range.object);
            }
            libc::_exit(Status::Failed as c_int);
        }
        node = range.next;
    }
}
