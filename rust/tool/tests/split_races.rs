//! A disk of several files that is rewritten while the tool runs, its descriptor and an extent's file: a right answer for one state, or
//! the report that a file changed.

mod common;
#[path = "common/disks.rs"]
mod disks;
#[path = "common/image.rs"]
mod image;

use common::{emulated, run, Folder, Ran};
use image::{Image, GRAIN};
use std::fs::{self, File};
use std::os::unix::fs::FileExt;
use std::sync::atomic::{AtomicBool, Ordering::Relaxed};
use std::thread;
use std::time::Duration;

const GRAINS: u64 = 16;
const CHANGED: &str = "the file changed while it was read";

/// One write to a file, inside one page: so there is no state between.
type Step = (&'static str, u64, Vec<u8>);

const TEXT: &str = "RW 2048 SPARSE \"image\"\nRW 0004 FLAT \"plain\" 0\n";

/// The image's table and header, and numbers of the text's lines, each from one state to another and back.
fn steps(text: &str) -> Vec<Step> {
    let at = |words: &str| text.find(words).expect("a line") as u64;
    let stored: Vec<u8> = (0..GRAINS)
        .flat_map(|grain| ((128 + GRAIN * grain) as u32).to_le_bytes())
        .collect();
    vec![
        ("image", 1024, stored.clone()),
        ("image", 4, vec![9]),
        ("image", 4, vec![2]),
        ("disk", at("RW 0004") + 3, b"0003".to_vec()),
        ("image", 1024, vec![0; stored.len()]),
        ("disk", at("RW 2048") + 3, b"2047".to_vec()),
        ("disk", at("RW 2048") + 3, b"2048".to_vec()),
        ("disk", at("RW 0004") + 3, b"0004".to_vec()),
    ]
}

fn make(folder: &Folder) -> String {
    let image = Image::new(&folder.at("image"), GRAIN * GRAINS);
    for grain in 0..GRAINS {
        let at = 512 * (image.start + GRAIN * grain);
        image.put(at, &vec![b'a' + grain as u8; 512 * GRAIN as usize]);
    }
    fs::write(folder.at("plain"), [b'p'; 2048]).expect("written");
    disks::descriptor(folder, "disk", TEXT);
    fs::read_to_string(folder.at("disk")).expect("a text")
}

/// What a run came to: status, standard output, standard error.
type Answer = (Option<i32>, Vec<u8>, String);

fn answer(ran: Ran) -> Answer {
    (ran.status, ran.out, ran.err)
}

fn write(folder: &Folder, (name, at, bytes): &Step) {
    let file = File::options().write(true).open(folder.at(name));
    let file = file.expect("a file");
    file.write_all_at(bytes, *at).expect("written");
}

/// The answers for all states, each standing still.
fn answers(words: &[&str]) -> Vec<Answer> {
    let folder = Folder::new();
    let text = make(&folder);
    let mut answers = Vec::new();
    for step in steps(&text) {
        write(&folder, &step);
        let answer = answer(run(folder.path(), words));
        assert!(matches!(answer.0, Some(0 | 1)), "{answer:?}");
        answers.push(answer);
    }
    answers
}

fn race(words: &[&str]) {
    let right = answers(words);
    let runs = if emulated() { 6 } else { 60 };
    let (mut answered, mut reported) = (0, 0);
    let folder = Folder::new();
    let steps = steps(&make(&folder));
    let stop = AtomicBool::new(false);
    thread::scope(|scope| {
        let stopped = StopAtEnd(&stop);
        scope.spawn(|| {
            for (number, step) in steps.iter().cycle().enumerate() {
                if stop.load(Relaxed) {
                    return;
                }
                write(&folder, step);
                let pause = 1 << (number * 7 % 16);
                thread::sleep(Duration::from_micros(pause));
            }
        });
        while answered + reported < runs
            || (answered == 0 || reported == 0) && answered + reported < 20 * runs
        {
            let (status, out, err) = answer(run(folder.path(), words));
            let told = String::from_utf8_lossy(&out).into_owned() + &err;
            if status == Some(4) && told.contains(CHANGED) {
                reported += 1;
            } else {
                let answer = (status, out, err);
                assert!(right.contains(&answer), "{answer:?}");
                answered += 1;
            }
        }
        drop(stopped);
    });
    println!("{words:?}: {answered} answers, {reported} reports");
    assert!(answered > 0 && reported > 0, "{answered} {reported}");
}

/// Stops the writer, also where the test fails.
struct StopAtEnd<'a>(&'a AtomicBool);

impl Drop for StopAtEnd<'_> {
    fn drop(&mut self) {
        self.0.store(true, Relaxed);
    }
}

#[test]
fn check() {
    race(&["check", "disk"]);
}

#[test]
fn sector() {
    race(&["sector", "disk", "130"]);
}

#[test]
fn map() {
    race(&["map", "disk"]);
}

#[test]
fn digest() {
    race(&["digest", "--json", "disk"]);
}
