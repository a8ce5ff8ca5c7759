//! An image that another program writes through a mapping while its grains are copied. No time of the file tells of that. The output
//! is all the same what the tables said when the image was opened.

mod common;
#[path = "common/held.rs"]
mod held;
#[path = "common/image.rs"]
mod image;
#[path = "common/mends.rs"]
mod mends;

use common::{run, tool, Folder, Ran};
use held::{begun, hold, signal};
use image::{Image, GRAIN};
use std::fs::{self, File};
use std::os::unix::io::AsRawFd;
use std::thread::yield_now;
use std::{ptr, slice};

const CAPACITY: u64 = 1 << 18;
/// Bytes of a table.
const TABLE: usize = 2048;
const PAGE: u64 = 4096;

/// A table of an image, mapped.
struct Table {
    start: *mut u8,
    /// Where the table is in what is mapped, which starts with a page.
    at: usize,
}

impl Table {
    fn new(file: &File, at: u64) -> Table {
        let page = at / PAGE * PAGE;
        let (protection, flags) = (libc::PROT_READ | libc::PROT_WRITE, libc::MAP_SHARED);
        let (file, offset) = (file.as_raw_fd(), page as libc::off_t);
        // SAFETY: the kernel chooses a free place.
        let start = unsafe {
            let length = 2 * PAGE as usize;
            libc::mmap(ptr::null_mut(), length, protection, flags, file, offset)
        };
        assert_ne!(start, libc::MAP_FAILED, "no mapping");
        Table {
            start: start.cast(),
            at: (at - page) as usize,
        }
    }

    fn bytes(&mut self) -> &mut [u8] {
        // SAFETY: two pages are mapped, and nobody else in this program has them.
        unsafe { slice::from_raw_parts_mut(self.start.add(self.at), TABLE) }
    }
}

impl Drop for Table {
    fn drop(&mut self) {
        // SAFETY: it was mapped with this length.
        unsafe { libc::munmap(self.start.cast(), 2 * PAGE as usize) };
    }
}

/// Runs a command while the last table of `disk` says that its grains are absent, which it did not when the run began.
fn turned(folder: &Folder, words: &[&str], table: &mut Table) -> Ran {
    let entries = table.bytes().to_vec();
    // From now on a write to the page shows in no time, until it is written to a disk.
    table.bytes().copy_from_slice(&entries);
    let child = hold(folder.path(), tool(folder.path()).args(words));
    table.bytes().fill(0);
    signal(&child, libc::SIGCONT);
    let ran = Ran::of(child.wait_with_output().expect("it ends"));
    table.bytes().copy_from_slice(&entries);
    ran
}

/// So many bytes of the grains are no holes: a copy of holes takes no time, and could not be held.
fn holds(words: &[&str], data: usize) {
    let folder = Folder::in_memory();
    let disk = Image::twofold(&folder.at("disk"), CAPACITY).filled();
    disk.put(512 * disk.start, &vec![7; data]);
    Image::new(&folder.at("delta"), CAPACITY);
    let last = CAPACITY / GRAIN / 512 * 512 - 512;
    let mut table = Table::new(&disk.file, disk.entry_at(last));
    holds_in(&folder, words, &mut table);
}

/// Of `disk`, with this table.
fn holds_in(folder: &Folder, words: &[&str], table: &mut Table) {
    run(folder.path(), &[words, &["-o", "right"]].concat()).well();
    let right = fs::read(folder.at("right")).expect("the output");
    let mut unseen = 0;
    for _ in 0..5 {
        let ran = turned(folder, &[words, &["-o", "out"]].concat(), table);
        if ran.status == Some(0) {
            let out = fs::read(folder.at("out")).expect("the output");
            assert!(out == right, "it is not what was read first");
            fs::remove_file(folder.at("out")).expect("removed");
            unseen += 1;
        } else {
            ran.ill("disk: the file changed while it was read");
        }
    }
    if unseen == 0 {
        println!("NOT RUN: a change that shows in no time, since each of them did here");
    }
}

#[test]
fn normal() {
    holds(&["normal", "disk"], 0);
}

#[test]
fn moves() {
    holds(&["move", "disk"], 0);
}

/// The same disk as COWD has it: one table, from sector 5 on, of which the last 512 entries in use turn.
#[test]
fn moves_from_cowd() {
    let folder = Folder::in_memory();
    Image::new(&folder.at("young"), CAPACITY).filled();
    run(folder.path(), &["move", "young", "-o", "disk"]).well();
    let disk = File::options()
        .read(true)
        .write(true)
        .open(folder.at("disk"));
    let entry = CAPACITY / GRAIN - 512;
    let mut table = Table::new(&disk.expect("the image"), 5 * 512 + 4 * entry);
    assert!(table.bytes().iter().any(|byte| *byte != 0));
    holds_in(&folder, &["move", "disk"], &mut table);
}

#[test]
fn mend() {
    holds(&["mend", "disk", "--good", "primary"], 1 << 26);
}

/// An image with a packed grain that stands far behind in the file, so that it is copied last; and that grain, mapped.
fn packed(folder: &Folder) -> Table {
    let far = 1 << 26;
    let mut image = mends::Image::of(folder, "tool-packed.vmdk");
    let grain = image.0[65536..65536 + 512].to_vec();
    image.0.resize(far, 7);
    image.0.extend(grain);
    image.0.resize(far + 2 * PAGE as usize, 7);
    for table in mends::TABLES {
        image.entry(table, 1, (far / 512) as u32);
    }
    image.save(folder, "disk");
    let disk = File::options()
        .read(true)
        .write(true)
        .open(folder.at("disk"));
    Table::new(&disk.expect("the image"), far as u64)
}

/// Whether an output has its length, which it gets once the image is judged.
fn judged(folder: &Folder) -> bool {
    let parts = folder
        .names()
        .into_iter()
        .find(|name| name.ends_with(".part"));
    let facts = parts.and_then(|part| fs::metadata(folder.at(&part)).ok());
    facts.map_or(true, |facts| facts.len() > 0)
}

/// The marker of a packed grain decides too.
#[test]
fn mend_of_packed_grains() {
    let folder = Folder::in_memory().with(&["tool-packed.vmdk"]);
    let mut grain = packed(&folder);
    let bytes = grain.bytes().to_vec();
    for _ in 0..5 {
        grain.bytes().copy_from_slice(&bytes);
        let words = ["mend", "disk", "--good", "primary", "-o", "out"];
        let mut child = begun(folder.path(), tool(folder.path()).args(words));
        while !judged(&folder) && child.try_wait().expect("a child").is_none() {
            yield_now();
        }
        grain.bytes().fill(0);
        let ran = Ran::of(child.wait_with_output().expect("it ends"));
        if ran.status == Some(0) {
            run(folder.path(), &["check", "out"]).well();
            fs::remove_file(folder.at("out")).expect("removed");
        } else {
            ran.ill("disk: the file changed while it was read");
        }
    }
}

#[test]
fn collapse() {
    holds(&["collapse", "disk", "delta"], 0);
}
