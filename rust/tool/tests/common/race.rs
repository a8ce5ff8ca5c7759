//! An image that is rewritten, in states that are known, while the tool runs.
#![allow(dead_code)]

use crate::common::{emulated, run, Folder, Ran};
use crate::image::put_back;
use std::fs::{self, File};
use std::os::unix::fs::FileExt;
use std::path::Path;
use std::sync::atomic::{AtomicBool, Ordering::Relaxed};
use std::thread;
use std::time::Duration;

const CHANGED: &str = "disk: the file changed while it was read";

/// One write, inside one page: so there is no state between.
pub struct Step {
    pub at: u64,
    pub bytes: Vec<u8>,
}

/// What a run came to.
#[derive(Debug, PartialEq, Eq)]
pub struct Answer {
    pub status: Option<i32>,
    out: Vec<u8>,
    pub err: String,
    written: Option<Vec<u8>>,
}

impl Answer {
    pub fn of(folder: &Folder, ran: Ran) -> Answer {
        let written = fs::read(folder.at("out")).ok();
        let _ = fs::remove_file(folder.at("out"));
        assert_eq!(folder.names(), ["delta", "disk"], "something is left");
        Answer {
            status: ran.status,
            out: ran.out,
            err: ran.err,
            written,
        }
    }

    pub fn reports_a_change(&self) -> bool {
        let told = String::from_utf8_lossy(&self.out).into_owned() + &self.err;
        self.status == Some(4) && self.written.is_none() && told.contains(CHANGED)
    }
}

/// An image, `disk`, and one above it, `delta`; and the states that it goes through.
pub struct Race {
    pub make: fn(&Folder),
    pub steps: fn() -> Vec<Step>,
}

/// The answers for all states of the file, each standing still.
fn answers(of: &Race, words: &[&str]) -> Vec<Answer> {
    let folder = Folder::new();
    (of.make)(&folder);
    let disk = File::options().write(true).open(folder.at("disk"));
    let disk = disk.expect("the image");
    let mut answers = Vec::new();
    for step in (of.steps)() {
        disk.write_all_at(&step.bytes, step.at).expect("written");
        let answer = Answer::of(&folder, run(folder.path(), words));
        assert!(matches!(answer.status, Some(0 | 1)), "{answer:?}");
        answers.push(answer);
    }
    answers
}

/// Numbers as if by chance.
struct Chance(u64);

impl Chance {
    fn below(&mut self, end: u64) -> u64 {
        self.0 ^= self.0 << 13;
        self.0 ^= self.0 >> 7;
        self.0 ^= self.0 << 17;
        self.0 % end
    }
}

/// Goes through the steps, over and over, with pauses of any length, until it is told to stop.
fn rewrite(path: &Path, steps: &[Step], back: bool, stop: &AtomicBool) {
    let file = File::options().read(true).write(true).open(path);
    let file = file.expect("the image");
    let facts = file.metadata().expect("facts");
    let mut chance = Chance(0x2545_f491_4f6c_dd1d);
    for step in steps.iter().cycle() {
        if stop.load(Relaxed) {
            return;
        }
        file.write_all_at(&step.bytes, step.at).expect("written");
        if back {
            put_back(&file, &facts);
        }
        let pause = 1 << chance.below(14);
        thread::sleep(Duration::from_micros(pause));
    }
}

/// Runs a command many times on an image that is rewritten all the while, until there were answers and reports.
pub fn race(of: &Race, words: &[&str]) {
    let (right, steps) = (answers(of, words), (of.steps)());
    let runs = if emulated() { 6 } else { 50 };
    for back in [false, true] {
        let (mut answered, mut reported) = (0, 0);
        let folder = Folder::new();
        (of.make)(&folder);
        let stop = AtomicBool::new(false);
        thread::scope(|scope| {
            let stopped = StopAtEnd(&stop);
            scope.spawn(|| rewrite(&folder.at("disk"), &steps, back, &stop));
            while answered + reported < runs
                || (answered == 0 || reported == 0) && answered + reported < 20 * runs
            {
                let answer = Answer::of(&folder, run(folder.path(), words));
                if answer.reports_a_change() {
                    // What was told before is right for one state.
                    let told = |right: &Answer| right.out.starts_with(&answer.out);
                    assert!(words[0] != "digest" || right.iter().any(told), "{answer:?}");
                    reported += 1;
                } else {
                    assert!(right.contains(&answer), "{answer:?}");
                    answered += 1;
                }
            }
            drop(stopped);
        });
        println!("{words:?}: {answered} answers, {reported} reports");
        assert!(answered > 0 && reported > 0, "{answered} {reported}");
    }
}

/// Stops the writer, also where the test fails.
pub struct StopAtEnd<'a>(pub &'a AtomicBool);

impl Drop for StopAtEnd<'_> {
    fn drop(&mut self) {
        self.0.store(true, Relaxed);
    }
}
