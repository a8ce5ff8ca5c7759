//! qemu-img as a rival: whole processes.

use crate::report::{Figure, Timed};
use crate::timing::least;
use std::ffi::OsStr;
use std::process::{Command, Stdio};
use std::time::{Duration, Instant};

pub struct Qemu {
    rounds: u32,
    /// What starting and ending it takes.
    start: Result<Duration, String>,
}

impl Qemu {
    pub fn new(rounds: u32) -> Qemu {
        let start = least(rounds, || run(&["--version".as_ref()]));
        Qemu { rounds, start }
    }

    pub fn start(&self) -> Timed {
        self.start.clone().map(Figure::whole)
    }

    /// The best time of qemu-img with these arguments. `before` is called before each round, outside of its time.
    pub fn best(&self, arguments: &[&OsStr], mut before: impl FnMut()) -> Timed {
        self.start.clone()?;
        let time = least(self.rounds, || {
            before();
            run(arguments)
        })?;
        Ok(Figure::whole(time))
    }
}

fn run(arguments: &[&OsStr]) -> Result<Duration, String> {
    let start = Instant::now();
    let status = Command::new("qemu-img")
        .args(arguments)
        .stdin(Stdio::null())
        .stdout(Stdio::null())
        .status();
    let time = start.elapsed();
    match status {
        Ok(status) if status.success() => Ok(time),
        Ok(status) => Err(format!("failed, {status}")),
        Err(_) => Err("not there: apt-get install qemu-utils".to_string()),
    }
}
