//! Images that are rewritten while the tool runs: a right answer for one state of the file, or the report that it changed; never a
//! signal, never a wrong byte, nothing left behind.

mod common;
#[path = "common/held.rs"]
mod held;
#[path = "common/image.rs"]
mod image;
#[path = "common/labs.rs"]
mod labs;
#[path = "common/race.rs"]
mod race;

use common::{emulated, run, tool, Folder, Ran};
use held::begun;
use image::{Image, GRAIN};
use race::{race, Answer, Race, Step, StopAtEnd};
use std::fs;
use std::sync::atomic::{AtomicBool, Ordering::Relaxed};
use std::thread;

const GRAINS: u64 = 16;

/// Tables, directory and header of an image in turn, each from one valid state to another or to a damaged one and back.
fn steps() -> Vec<Step> {
    let start = 128;
    let entries: Vec<u8> = (0..GRAINS)
        .flat_map(|grain| ((start + GRAIN * grain) as u32).to_le_bytes())
        .collect();
    let (directory, table) = (512, 1024);
    let capacity = GRAIN * GRAINS;
    [
        (table, entries.clone()),
        (directory, vec![1, 0, 0, 0]),
        (directory, vec![2, 0, 0, 0]),
        (4, vec![9]),
        (4, vec![2]),
        (12, (capacity / 2).to_le_bytes().to_vec()),
        (12, capacity.to_le_bytes().to_vec()),
        (table + 12, vec![0xff; 4]),
        (table + 12, entries[12..16].to_vec()),
        (table, vec![0; entries.len()]),
    ]
    .map(|(at, bytes)| Step { at, bytes })
    .into()
}

/// An image whose grains are all told apart, and one above it.
fn make(folder: &Folder) {
    let disk = Image::new(&folder.at("disk"), GRAIN * GRAINS);
    for grain in 0..GRAINS {
        let at = 512 * (disk.start + GRAIN * grain);
        disk.put(at, &vec![b'a' + grain as u8; 512 * GRAIN as usize]);
    }
    Image::new(&folder.at("delta"), GRAIN * GRAINS).entry(5, 1);
}

const KDMV: Race = Race { make, steps };

/// A lab, whose header, directory and table change in turn: it has another place for its directory, and none; its grains change
/// places; it is cut to one of its grains; and it is refused for its version, its capacity, its dirty number and an entry.
fn old_steps() -> Vec<Step> {
    let word = |number: u32| number.to_le_bytes().to_vec();
    let (capacity, directory, table) = (12, 4 * 512, 5 * 512);
    [
        (20, word(600)),
        (20, word(4)),
        (directory, word(0)),
        (directory, word(5)),
        (
            table,
            [45u32, 0, 37]
                .iter()
                .flat_map(|entry| entry.to_le_bytes())
                .collect(),
        ),
        (
            table,
            [37u32, 0, 45]
                .iter()
                .flat_map(|entry| entry.to_le_bytes())
                .collect(),
        ),
        (capacity, word(8)),
        (capacity, word(0)),
        (capacity, word(labs::CAPACITY as u32)),
        (4, word(2)),
        (4, word(1)),
        (1648, word(1)),
        (1648, word(0)),
        (table + 4, word(u32::MAX)),
        (table + 4, word(0)),
    ]
    .map(|(at, bytes)| Step { at, bytes })
    .into()
}

const COWD: Race = Race {
    make: |folder| {
        fs::write(folder.at("disk"), labs::lab(1, 8)).expect("written");
        fs::write(folder.at("delta"), labs::lab(2, 8)).expect("written");
    },
    steps: old_steps,
};

#[test]
fn check() {
    race(&KDMV, &["check", "disk"]);
}

#[test]
fn survey() {
    race(&KDMV, &["survey", "--json", "disk"]);
}

#[test]
fn profile() {
    race(&KDMV, &["profile", "disk"]);
}

/// Of a grain whose entry comes and goes, and is damaged between.
#[test]
fn explain() {
    race(&KDMV, &["explain", "disk", "delta", "400"]);
}

#[test]
fn map() {
    race(&KDMV, &["map", "disk", "delta"]);
}

#[test]
fn coverage() {
    race(&KDMV, &["map", "--coverage", "disk", "delta"]);
}

#[test]
fn digest() {
    race(&KDMV, &["digest", "disk"]);
}

#[test]
fn normal() {
    race(&KDMV, &["normal", "disk", "-o", "out"]);
}

/// Of either kind, each to the other one.
#[test]
fn moves() {
    race(&KDMV, &["move", "disk", "-o", "out"]);
    race(&COWD, &["move", "disk", "-o", "out"]);
}

#[test]
fn collapse() {
    race(&KDMV, &["collapse", "disk", "delta", "-o", "out"]);
}

/// Entries turn from absent to stored and back once the output is begun: what the library counted before it wrote must be what
/// it writes. They are the last ones of many, so that each pass over the tables takes its time to come there.
#[test]
fn tables_that_turn_while_the_normal_form_is_written() {
    let (grains, turning) = (1 << 20, 256);
    let folder = Folder::new();
    let disk = Image::new(&folder.at("disk"), GRAIN * grains);
    disk.length(512 * (disk.start + GRAIN * turning));
    let stored: Vec<u8> = (0..turning)
        .flat_map(|grain| ((disk.start + GRAIN * grain) as u32).to_le_bytes())
        .collect();
    let states = [vec![0; stored.len()], stored];
    let at = disk.entry_at(grains - 512);
    let words = ["normal", "disk", "-o", "out"];
    Image::new(&folder.at("delta"), GRAIN);
    for turn in 0..if emulated() { 4 } else { 16 } {
        let [first, second] = [&states[turn % 2], &states[(turn + 1) % 2]];
        disk.put(at, first);
        let right = Answer::of(&folder, run(folder.path(), &words));
        assert_eq!(right.status, Some(0), "{}", right.err);
        let child = begun(folder.path(), tool(folder.path()).args(words));
        let done = AtomicBool::new(false);
        let ran = thread::scope(|scope| {
            let stopped = StopAtEnd(&done);
            scope.spawn(|| {
                while !done.load(Relaxed) {
                    disk.put(at, second);
                    disk.put(at, first);
                }
            });
            let ran = Ran::of(child.wait_with_output().expect("it ends"));
            drop(stopped);
            ran
        });
        let answer = Answer::of(&folder, ran);
        let (status, err) = (answer.status, answer.err.clone());
        assert!(
            answer.reports_a_change() || answer == right,
            "{status:?} {err}"
        );
    }
}
