//! Has the disk write while the library does: a thread of its own sends out what is there, so that the sync at the end has little
//! left to wait for.

use std::fs::File;
use std::os::unix::io::AsRawFd;
use std::sync::mpsc::{channel, RecvTimeoutError, Sender};
use std::thread::{self, JoinHandle};
use std::time::Duration;

/// Each time a page that is being written may go out twice: not too often.
const PAUSE: Duration = Duration::from_millis(50);

/// Ends with its thread when it goes.
pub struct Writeback {
    stop: Option<Sender<()>>,
    thread: Option<JoinHandle<()>>,
}

impl Writeback {
    pub fn of(file: File) -> Writeback {
        let (stop, stopped) = channel::<()>();
        let work = move || {
            while stopped.recv_timeout(PAUSE) == Err(RecvTimeoutError::Timeout) {
                // Whatever fails here fails again at the sync, which tells it.
                // SAFETY: a plain call on an open file; a length of 0 is to its end.
                unsafe {
                    libc::sync_file_range(file.as_raw_fd(), 0, 0, libc::SYNC_FILE_RANGE_WRITE)
                };
            }
        };
        Writeback {
            stop: Some(stop),
            // Without a thread all is left to the sync.
            thread: thread::Builder::new().spawn(work).ok(),
        }
    }
}

impl Drop for Writeback {
    fn drop(&mut self) {
        drop(self.stop.take());
        if let Some(thread) = self.thread.take() {
            let _ = thread.join();
        }
    }
}
