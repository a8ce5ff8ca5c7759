//! An image that is rewritten or cut while it is mended: a right answer for one state of its tables, or a report that it
//! changed.

mod common;
#[path = "common/held.rs"]
mod held;
#[path = "common/image.rs"]
mod image;

use common::{emulated, run, Folder, Ran};
use held::{held, signal};
use image::{Image, GRAIN};
use std::fs;
use std::sync::atomic::{AtomicBool, Ordering::Relaxed};
use std::thread;
use std::time::Duration;

const GRAINS: u64 = 16;
const CHANGED: &str = "disk: the file changed while it was read";

/// The redundant table, in one write inside one page: alike, in another order, with a grain past the end, without any.
fn states(disk: &Image) -> [Vec<u8>; 4] {
    let table = |grain: &dyn Fn(u64) -> u64| -> Vec<u8> {
        let entries = (0..GRAINS).map(|number| grain(number) as u32);
        entries.flat_map(u32::to_le_bytes).collect()
    };
    let stored = |number| disk.start + GRAIN * number;
    [
        table(&stored),
        table(&|number| stored(GRAINS - 1 - number)),
        table(&|number| stored(number + u64::from(number == GRAINS - 1))),
        table(&|_| 0),
    ]
}

/// Grains that are all told apart, so that the sectors that differ do so wholly.
fn make(folder: &Folder) -> (Image, u64) {
    let disk = Image::twofold(&folder.at("disk"), GRAIN * GRAINS).filled();
    for grain in 0..GRAINS {
        let at = 512 * (disk.start + GRAIN * grain);
        disk.put(at, &vec![b'a' + grain as u8; 512 * GRAIN as usize]);
    }
    let copies = disk.entry_at(0) + 2048;
    assert_eq!(copies / 4096, (copies + 4 * GRAINS - 1) / 4096);
    (disk, copies)
}

/// Status, standard output, standard error and the output.
type Answer = (Option<i32>, String, String, Option<Vec<u8>>);

fn answer(folder: &Folder, ran: Ran) -> Answer {
    let written = fs::read(folder.at("out")).ok();
    let _ = fs::remove_file(folder.at("out"));
    assert_eq!(folder.names(), ["disk"], "something is left");
    (ran.status, ran.text(), ran.err, written)
}

fn race(good: &str) {
    let words = ["mend", "disk", "--good", good, "-o", "out"];
    let folder = Folder::new();
    let (disk, copies) = make(&folder);
    let states = states(&disk);
    let told = |state: &Vec<u8>| {
        disk.put(copies, state);
        answer(&folder, run(folder.path(), &words))
    };
    let right: Vec<Answer> = states.iter().map(told).collect();
    for (one, state) in right.iter().enumerate() {
        assert!(right[..one].iter().all(|before| before != state), "{one}");
    }
    let (mut answered, mut reported) = (0, 0);
    let runs = if emulated() { 6 } else { 60 };
    let stop = AtomicBool::new(false);
    thread::scope(|scope| {
        scope.spawn(|| {
            for (turn, state) in states.iter().cycle().enumerate() {
                if stop.load(Relaxed) {
                    return;
                }
                disk.put(copies, state);
                thread::sleep(Duration::from_micros(1 << (turn % 14)));
            }
        });
        let _stop = StopAtEnd(&stop);
        while answered + reported < runs
            || (answered == 0 || reported == 0) && answered + reported < 20 * runs
        {
            let now = answer(&folder, run(folder.path(), &words));
            if now.0 == Some(4) {
                assert!(now.2.contains(CHANGED) && now.1.is_empty() && now.3.is_none());
                reported += 1;
            } else {
                assert!(right.contains(&now), "{:?} {} {}", now.0, now.1, now.2);
                answered += 1;
            }
        }
    });
    println!("{good}: {answered} answers, {reported} reports");
    assert!(answered > 0 && reported > 0, "{answered} {reported}");
}

/// Stops the writer, also where the test fails.
struct StopAtEnd<'a>(&'a AtomicBool);

impl Drop for StopAtEnd<'_> {
    fn drop(&mut self) {
        self.0.store(true, Relaxed);
    }
}

#[test]
fn tables_that_turn_while_the_primary_ones_are_good() {
    race("primary");
}

#[test]
fn tables_that_turn_while_they_are_good() {
    race("redundant");
}

/// Enough bytes that are no holes for the copy to be held.
fn long(folder: &Folder) -> Image {
    let disk = Image::twofold(&folder.at("disk"), GRAIN * 4096).filled();
    let grain = vec![7; 512 * GRAIN as usize];
    for number in 0..4096 {
        disk.put(512 * (disk.start + GRAIN * number), &grain);
    }
    disk
}

#[test]
fn a_file_that_is_cut_or_changed_while_it_is_copied() {
    let folder = Folder::new();
    let disk = long(&folder);
    let length = disk.file.metadata().expect("facts").len();
    let turns: [&dyn Fn(); 3] = [
        &|| disk.put(512 * disk.start, b"x"),
        &|| disk.length(length - 512),
        &|| disk.length(0),
    ];
    for turn in turns {
        let child = held(&folder, &["mend", "disk", "--good", "primary", "-o", "out"]);
        turn();
        signal(&child, libc::SIGCONT);
        let ran = Ran::of(child.wait_with_output().expect("it ends"));
        ran.ill(CHANGED);
        assert_eq!(folder.names(), ["disk"]);
        disk.length(length);
    }
}

#[test]
fn a_signal_while_it_is_copied() {
    let folder = Folder::new();
    long(&folder);
    for number in [libc::SIGINT, libc::SIGTERM, libc::SIGHUP] {
        let child = held(&folder, &["mend", "disk", "--good", "primary", "-o", "out"]);
        signal(&child, number);
        signal(&child, libc::SIGCONT);
        let output = child.wait_with_output().expect("it ends");
        assert_eq!(
            std::os::unix::process::ExitStatusExt::signal(&output.status),
            Some(number)
        );
        assert_eq!(folder.names(), ["disk"]);
    }
}
