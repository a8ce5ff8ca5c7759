//! COWD images that are laid out in other ways than results are: what `move` reads of them, and what it refuses.

mod common;
#[path = "common/dirty.rs"]
mod dirty;
#[path = "common/disks.rs"]
mod disks;
#[path = "common/labs.rs"]
mod labs;

use common::{run, Folder, Ran};
use labs::lab;
use serde_json::Value;
use sha2::{Digest, Sha256};
use std::fs;

/// Sectors of a grain, of a table, and of what a table holds of the disk.
const GRAIN: usize = 8;
const TABLE: usize = 32;
const HELD: usize = 4096 * GRAIN;

/// Three tables and a part of a fourth, which ends inside of a grain.
const CAPACITY: usize = 3 * HELD + 21;

/// A COWD image with its parts one after the other in this order, each once: the directory, a table, or a grain of this number.
struct Old {
    bytes: Vec<u8>,
    raw: Vec<u8>,
    directory: usize,
    tables: [usize; 4],
}

enum Part {
    Directory,
    Table(usize),
    Grain(usize),
}

impl Old {
    fn of(parts: &[Part]) -> Old {
        let mut old = Old {
            bytes: vec![0; 4 * 512],
            raw: vec![0; 512 * CAPACITY],
            directory: 0,
            tables: [0; 4],
        };
        let mut grains = Vec::new();
        for part in parts {
            let at = old.bytes.len() / 512;
            match *part {
                Part::Directory => {
                    old.directory = at;
                    old.grow(1, 0);
                }
                Part::Table(number) => {
                    old.tables[number] = at;
                    old.grow(TABLE, 0);
                }
                Part::Grain(grain) => {
                    grains.push((grain, at));
                    old.grow(GRAIN, 0xee);
                }
            }
        }
        old.head();
        grains
            .into_iter()
            .for_each(|(grain, at)| old.grain(grain, at));
        old
    }

    fn grow(&mut self, sectors: usize, byte: u8) {
        self.bytes.resize(self.bytes.len() + 512 * sectors, byte);
    }

    fn put(&mut self, at: usize, number: usize) {
        self.bytes[at..at + 4].copy_from_slice(&(number as u32).to_le_bytes());
    }

    fn head(&mut self) {
        self.bytes[..4].copy_from_slice(b"COWD");
        let directory = self.directory;
        // The directory has room for 128 entries, of which four are in use; the others may be anything.
        for (at, number) in [
            (4, 1),
            (8, 3),
            (12, CAPACITY),
            (16, GRAIN),
            (20, directory),
            (24, 128),
        ] {
            self.put(at, number);
        }
        for (number, table) in self.tables.into_iter().enumerate() {
            self.put(512 * directory + 4 * number, table);
        }
        self.put(512 * directory + 16, usize::MAX);
    }

    /// Sectors of a grain are filled with bytes of their own, and so the disk's as far as it has them.
    fn grain(&mut self, grain: usize, at: usize) {
        self.put(512 * self.tables[grain / 4096] + 4 * (grain % 4096), at);
        for offset in 0..GRAIN {
            let sector = GRAIN * grain + offset;
            let byte = (grain * 31 + offset) as u8;
            self.bytes[512 * (at + offset)..][..512].fill(byte);
            if sector < CAPACITY {
                self.raw[512 * sector..][..512].fill(byte);
            }
        }
    }
}

fn moved(folder: &Folder, image: &[u8]) -> Ran {
    fs::write(folder.at("old"), image).expect("written");
    run(
        folder.path(),
        &["--json", "move", "old", "-o", "new", "--force"],
    )
}

/// It is moved, and its digest and that of what is read of the result are those of the disk.
fn right(folder: &Folder, old: &Old) {
    let said: Value = serde_json::from_slice(&moved(folder, &old.bytes).well().out).expect("JSON");
    let hash = Sha256::digest(&old.raw);
    let wanted: String = hash.iter().map(|byte| format!("{byte:02x}")).collect();
    assert_eq!(said["digest"], wanted);
    run(folder.path(), &["check", "new"]).well();
    for sector in (0..CAPACITY).step_by(GRAIN).chain([CAPACITY - 1]) {
        let grain = &old.raw[512 * sector..][..512];
        if grain[0] != 0 {
            let read = run(folder.path(), &["read", "new", &sector.to_string()]);
            assert!(read.well().out == grain, "{sector}");
        }
    }
    // The library on the whole file has the same result.
    let mut out = vec![0; 1 << 20];
    let length = anhkhovet::to_kdmv(&old.bytes, &mut out).expect("moved") as usize;
    assert!(fs::read(folder.at("new")).expect("a result") == out[..length]);
}

#[test]
fn tables_in_any_order_and_absent_ones() {
    use Part::*;
    let folder = Folder::new();
    let last = CAPACITY / GRAIN;
    // As a result has them; the other way round; the directory last of all; grains between; without the second and the last.
    right(
        &folder,
        &Old::of(&[
            Directory,
            Table(0),
            Table(1),
            Table(2),
            Table(3),
            Grain(0),
            Grain(5000),
            Grain(last),
        ]),
    );
    right(
        &folder,
        &Old::of(&[
            Table(3),
            Grain(last),
            Table(2),
            Table(1),
            Table(0),
            Grain(9000),
            Grain(1),
            Directory,
        ]),
    );
    right(
        &folder,
        &Old::of(&[
            Grain(1),
            Table(2),
            Grain(8192),
            Directory,
            Grain(8193),
            Table(0),
            Grain(0),
        ]),
    );
    right(
        &folder,
        &Old::of(&[Grain(4095), Grain(4096), Table(1), Table(0), Directory]),
    );
    right(&folder, &Old::of(&[Directory]));
}

/// What is at fault is told as the library tells it of the whole file.
#[test]
fn faults() {
    use Part::*;
    let folder = Folder::new();
    let sound = || Old::of(&[Table(1), Directory, Grain(4096), Table(0), Grain(2)]);
    let end = sound().bytes.len() / 512;
    let directory = 512 * sound().directory;
    // Place and number of a change in the header or the directory, and the refusal.
    for (at, number, refused, place) in [
        (20, end, 8, 2),
        (20, end - 1, 8, 4),
        (20, 0xffff_ffff, 8, 2),
        (20, 0, 8, 2),
        (24, 128 * end, 8, 2),
        (24, 3, 6, 0),
        (12, 0xffff_ffff, 6, 0),
        (12, 0, 6, 0),
        (16, 0, 6, 0),
        (16, 0xffff_ffff, 6, 0),
        (4, 2, 3, 0),
        (directory, end, 8, 4),
        (directory + 4, end - 31, 8, 4),
        (directory + 4, 0xffff_ffff, 8, 4),
        (directory + 12, 3, 12, 0),
        (directory + 8, 4, 12, 0),
    ] {
        let mut old = sound();
        old.put(at, number);
        let ran = moved(&folder, &old.bytes);
        let said: Value = serde_json::from_slice(&ran.out).expect("JSON");
        let why = anhkhovet::to_kdmv(&old.bytes, &mut []).expect_err("refused");
        let told = [&said["refused"]["number"], &said["refused"]["place"]];
        assert_eq!(told, [why.number, why.place], "{at} {number}");
        assert_eq!((why.number, why.place), (refused, place), "{at} {number}");
        assert_eq!(
            (ran.status, folder.names().len()),
            (Some(1), 1),
            "{at} {number}"
        );
    }
}

/// A file of a tebibyte, of holes: no number of the header costs more than what is there.
#[test]
fn long_files_of_holes() {
    let folder = Folder::new();
    for (capacity, grain_size, number) in
        [(1u32 << 31, 1u32, 44), (u32::MAX, 1, 6), (u32::MAX, 0, 6)]
    {
        let mut old = lab(1, 8);
        old.truncate(2048);
        for (at, number) in [(12, capacity), (16, grain_size), (20, 4), (24, 1 << 20)] {
            old[at..at + 4].copy_from_slice(&number.to_le_bytes());
        }
        fs::write(folder.at("old"), old).expect("written");
        let file = fs::File::options().write(true).open(folder.at("old"));
        file.expect("a file").set_len(1 << 40).expect("holes");
        let ran = common::run_soon(folder.path(), &["move", "old", "-o", "new"]);
        ran.ended(1, &format!("old: refused {number}: "));
    }
}

/// Any byte of the four says that the disk was still open, and none beside them.
#[test]
fn a_disk_that_was_still_open() {
    let folder = Folder::new();
    for at in dirty::COWD..dirty::COWD + 4 {
        for byte in [1, 255] {
            let mut old = lab(1, 8);
            old[at] = byte;
            moved(&folder, &old).ended(1, &format!("old: refused 27: {}", dirty::NOTE));
        }
    }
    for at in [dirty::COWD - 1, dirty::COWD + 4, dirty::KDMV] {
        let mut old = lab(1, 8);
        old[at] = 1;
        moved(&folder, &old).well();
    }
}
