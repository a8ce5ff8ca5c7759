//! Images that a test writes by itself: too long to be samples, since they are mostly holes.
#![allow(dead_code)]

use std::fs::{File, Metadata};
use std::os::unix::fs::{FileExt, MetadataExt};
use std::os::unix::io::AsRawFd;
use std::path::Path;

pub const GRAIN: u64 = 128;

/// An image with a directory and all of its tables, as the collapsed layout has them, or with two.
pub struct Image {
    pub file: File,
    pub capacity: u64,
    tables: u64,
    /// As many bytes after an entry its copy is; 0 where there is none.
    copies: u64,
    /// The first sector after the tables, at a grain's edge.
    pub start: u64,
}

impl Image {
    pub fn new(path: &Path, capacity: u64) -> Image {
        Image::laid_out(path, capacity, 1)
    }

    /// The same with a redundant directory.
    pub fn twofold(path: &Path, capacity: u64) -> Image {
        Image::laid_out(path, capacity, 2)
    }

    fn laid_out(path: &Path, capacity: u64, sides: u64) -> Image {
        let directory_entries = (capacity + 512 * GRAIN - 1) / (512 * GRAIN);
        let directory_sectors = (directory_entries * 4 + 511) / 512;
        let tables = 1 + sides * directory_sectors;
        let start = (tables + sides * 4 * directory_entries + GRAIN - 1) / GRAIN * GRAIN;
        let file = File::options()
            .read(true)
            .write(true)
            .create_new(true)
            .open(path)
            .expect("a new file");
        let image = Image {
            file,
            capacity,
            tables,
            copies: (sides - 1) * 2048 * directory_entries,
            start,
        };
        let redundant = (sides - 1) * (1 + directory_sectors);
        image.put(0, &head(capacity, redundant));
        for table in 0..sides * directory_entries {
            let (side, entry) = (table / directory_entries, table % directory_entries);
            let at = 512 * (1 + side * directory_sectors) + 4 * entry;
            image.put(at, &((tables + 4 * table) as u32).to_le_bytes());
        }
        image.length(512 * start);
        image
    }

    pub fn put(&self, at: u64, bytes: &[u8]) {
        self.file.write_all_at(bytes, at).expect("written");
    }

    pub fn length(&self, length: u64) {
        self.file.set_len(length).expect("a length");
    }

    /// Where the table entry of a grain is, in bytes.
    pub fn entry_at(&self, grain: u64) -> u64 {
        512 * (self.tables + 4 * (grain / 512)) + 4 * (grain % 512)
    }

    /// Grain `grain` has table entry `entry`, in both tables where there are two.
    pub fn entry(&self, grain: u64, entry: u64) {
        self.put(self.entry_at(grain), &(entry as u32).to_le_bytes());
        self.copy(grain, entry);
    }

    /// The same in the redundant table alone.
    pub fn copy(&self, grain: u64, entry: u64) {
        if self.copies > 0 {
            let at = self.entry_at(grain) + self.copies;
            self.put(at, &(entry as u32).to_le_bytes());
        }
    }

    /// Every grain stored, in order, and all of them holes.
    pub fn full(path: &Path, capacity: u64) -> Image {
        Image::new(path, capacity).filled()
    }

    /// The same with every grain stored, in order, and all of them holes.
    pub fn filled(self) -> Image {
        let grains = self.capacity / GRAIN;
        for grain in 0..grains {
            self.entry(grain, self.start + GRAIN * grain);
        }
        self.length(512 * (self.start + GRAIN * grains));
        self
    }
}

fn head(capacity: u64, redundant: u64) -> Vec<u8> {
    let mut head = b"KDMV".to_vec();
    let flags = if redundant == 0 { 5 } else { 7 };
    for number in [2u32, flags] {
        head.extend(number.to_le_bytes());
    }
    for number in [capacity, GRAIN, 0, 0] {
        head.extend(number.to_le_bytes());
    }
    head.extend(512u32.to_le_bytes());
    for number in [redundant, 1, 0] {
        head.extend(number.to_le_bytes());
    }
    head.push(0);
    head.extend(b"\n \r\n");
    head.resize(512, 0);
    head
}

/// Puts back the time of modification that the file had.
pub fn put_back(file: &File, facts: &Metadata) {
    let omitted = libc::timespec {
        tv_sec: 0,
        tv_nsec: libc::UTIME_OMIT,
    };
    let before = libc::timespec {
        tv_sec: facts.mtime(),
        tv_nsec: facts.mtime_nsec(),
    };
    // SAFETY: two records to be read, of an open file.
    let status = unsafe { libc::futimens(file.as_raw_fd(), [omitted, before].as_ptr()) };
    assert_eq!(status, 0);
}
