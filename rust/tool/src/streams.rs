//! The standard streams. Rust's start opens /dev/null in place of those that are closed, and its standard output takes one
//! that cannot be written for one that swallows everything: so they are looked at before the start, and used as plain files.

use std::fs::File;
use std::io;
use std::mem::ManuallyDrop;
use std::os::unix::io::FromRawFd;
use std::sync::atomic::{AtomicBool, Ordering::SeqCst};

static INPUT_CLOSED: AtomicBool = AtomicBool::new(false);
static OUTPUT_CLOSED: AtomicBool = AtomicBool::new(false);

/// Run by the loader, before Rust's start.
#[used]
#[link_section = ".init_array"]
static LOOK: extern "C" fn() = look;

extern "C" fn look() {
    // SAFETY: a plain call.
    let closed = |stream| unsafe { libc::fcntl(stream, libc::F_GETFD) } < 0;
    INPUT_CLOSED.store(closed(libc::STDIN_FILENO), SeqCst);
    OUTPUT_CLOSED.store(closed(libc::STDOUT_FILENO), SeqCst);
}

fn stream(number: libc::c_int, closed: &AtomicBool) -> io::Result<File> {
    if closed.load(SeqCst) {
        return Err(io::Error::from_raw_os_error(libc::EBADF));
    }
    // SAFETY: the stream was open at the start, and whoever asks for it is alone in using it.
    Ok(unsafe { File::from_raw_fd(number) })
}

/// Standard input, for whoever reads it to its end: it is closed then.
pub fn input() -> io::Result<File> {
    stream(libc::STDIN_FILENO, &INPUT_CLOSED)
}

/// Standard output, which stays open.
pub fn output() -> io::Result<ManuallyDrop<File>> {
    stream(libc::STDOUT_FILENO, &OUTPUT_CLOSED).map(ManuallyDrop::new)
}

/// What is printed is seen at once.
pub fn output_is_terminal() -> bool {
    // SAFETY: a plain call.
    unsafe { libc::isatty(libc::STDOUT_FILENO) == 1 }
}
