//! The thread that runs the command: the library's check wants more stack than a shell may leave the first thread.

use crate::failure::Status;
use crate::print;
use crate::signals::Attending;
use std::thread;

/// As much as shells usually leave the first thread; a check takes 1,031 KiB.
pub const STACK: usize = 8 << 20;

/// Runs the command to its status.
pub fn run(command: fn() -> i32) -> i32 {
    let started = thread::Builder::new()
        .name("anhkhovet".to_string())
        .stack_size(STACK)
        .spawn(move || {
            let _attending = Attending::here();
            command()
        });
    match started {
        // A mistake in the tool that ended the thread was told by it.
        Ok(thread) => thread.join().unwrap_or(Status::Failed as i32),
        Err(error) => {
            print::note(&format!("no thread can be started: {error}"));
            Status::Failed as i32
        }
    }
}
