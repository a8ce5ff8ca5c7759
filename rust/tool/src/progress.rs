//! Progress on a terminal, for what takes longer than a second. A thread of its own draws; the work only counts.

use indicatif::{ProgressBar, ProgressStyle};
use std::sync::atomic::{AtomicU64, Ordering::Relaxed};
use std::sync::mpsc::{channel, RecvTimeoutError, Sender};
use std::sync::Arc;
use std::thread::{self, JoinHandle};
use std::time::Duration;

const PATIENCE: Duration = Duration::from_secs(1);
const TICK: Duration = Duration::from_millis(100);

pub struct Progress {
    count: Arc<AtomicU64>,
    stop: Option<Sender<()>>,
    thread: Option<JoinHandle<()>>,
}

impl Progress {
    /// Starts the watch. With a total of 0 there is nothing to count, and only the time is shown.
    pub fn start(doing: &str, total: u64) -> Progress {
        let count = Arc::new(AtomicU64::new(0));
        let counted = Arc::clone(&count);
        let doing = doing.to_string();
        let (stop, stopped) = channel::<()>();
        // Without a thread there is no progress to be seen, and the work goes on.
        let thread = thread::Builder::new()
            .spawn(move || {
                if stopped.recv_timeout(PATIENCE) != Err(RecvTimeoutError::Timeout) {
                    return;
                }
                let bar = drawn(&doing, total);
                while stopped.recv_timeout(TICK) == Err(RecvTimeoutError::Timeout) {
                    bar.set_position(counted.load(Relaxed));
                    bar.tick();
                }
                bar.finish_and_clear();
            })
            .ok();
        Progress {
            count,
            stop: Some(stop),
            thread,
        }
    }

    pub fn at(&self, count: u64) {
        self.count.store(count, Relaxed);
    }
}

impl Drop for Progress {
    fn drop(&mut self) {
        drop(self.stop.take());
        if let Some(thread) = self.thread.take() {
            let _ = thread.join();
        }
    }
}

/// indicatif draws to standard error, and only if that is a terminal.
fn drawn(doing: &str, total: u64) -> ProgressBar {
    let (bar, form) = if total == 0 {
        (ProgressBar::new_spinner(), "{spinner} {msg} {elapsed}")
    } else {
        (
            ProgressBar::new(total),
            "{msg} [{bar:30}] {percent}% {elapsed}",
        )
    };
    if let Ok(style) = ProgressStyle::with_template(form) {
        bar.set_style(style);
    }
    bar.set_message(doing.to_string());
    bar.with_elapsed(PATIENCE)
}
