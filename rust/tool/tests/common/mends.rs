//! Images whose two sides differ: samples with other entries in one of their tables.
#![allow(dead_code)]

use crate::common::Folder;
use std::fs;

/// Where the directories and tables of the samples of one table are, in bytes: primary, redundant.
pub const DIRECTORIES: [usize; 2] = [26 * 512, 21 * 512];
pub const TABLES: [usize; 2] = [27 * 512, 22 * 512];

/// The entry of version 1's story, 128, and one that differs from it behind a zero byte.
pub const STORY: [u8; 4] = [0x80, 0, 0, 0];
pub const BEHIND_ZERO: [u8; 4] = [0x80, 0, 1, 0];

const GRAIN: usize = 128 * 512;

pub struct Image(pub Vec<u8>);

impl Image {
    pub fn of(folder: &Folder, name: &str) -> Image {
        Image(fs::read(folder.at(name)).expect("an image"))
    }

    pub fn put(&mut self, at: usize, bytes: &[u8]) {
        self.0[at..at + bytes.len()].copy_from_slice(bytes);
    }

    /// An entry of a table or a directory.
    pub fn entry(&mut self, of: usize, number: usize, entry: u32) {
        self.put(of + 4 * number, &entry.to_le_bytes());
    }

    /// One more grain at the end, and its sector.
    pub fn grain(&mut self, bytes: Vec<u8>) -> u32 {
        let sector = self.0.len() / 512;
        self.0.extend(bytes);
        sector as u32
    }

    pub fn save(&self, folder: &Folder, name: &str) {
        fs::write(folder.at(name), &self.0).expect("written");
    }
}

/// Adds such images to a folder that has the samples.
pub fn add(folder: &Folder) {
    let [primary, redundant] = TABLES;
    let base = || Image::of(folder, "tool-base.vmdk");
    let change = |name: &str, change: &dyn Fn(&mut Image)| {
        let mut image = base();
        change(&mut image);
        image.save(folder, name);
    };
    change("story", &|image| {
        assert_eq!(image.0[primary..primary + 4], STORY);
        image.put(redundant, &BEHIND_ZERO);
    });
    change("open-story", &|image| {
        image.put(72, &[1]);
        image.put(redundant, &BEHIND_ZERO);
    });
    change("past-primary", &|image| image.entry(primary, 1, 65664));
    // Grain 0 with another sector 5, and a grain that is absent in the primary table and all zeros here.
    change("newer", &|image| {
        let mut grain = image.0[65536..65536 + GRAIN].to_vec();
        grain[5 * 512] ^= 1;
        let [changed, zeros] = [grain, vec![0; GRAIN]].map(|bytes| image.grain(bytes));
        image.entry(redundant, 0, changed);
        image.entry(redundant, 3, zeros);
    });
    // The disk ends in its second grain, whose entries differ, and those after it are not in use.
    change("clipped", &|image| {
        image.put(12, &250u64.to_le_bytes());
        image.entry(redundant, 0, 256);
        image.entry(redundant, 1, 128);
        image.entry(redundant, 2, 7);
    });
    // 32 grains of 8 sectors, each of which is another one in the redundant table.
    change("many", &|image| {
        image.put(20, &[8]);
        for grain in 0..32 {
            image.entry(primary, grain, 128 + 8 * grain as u32);
            image.entry(redundant, grain, 128 + 8 * ((grain as u32 + 1) % 32));
            image.put(65536 + 4096 * grain, &[grain as u8; 4096]);
        }
    });
    change("one-directory", &|image| {
        image.put(8, &[1]);
        image.put(48, &[0]);
    });
    change("unpaired", &|image| image.entry(DIRECTORIES[1], 0, 0));
    change("twice-named", &|image| image.entry(DIRECTORIES[1], 0, 27));

    let mut middle = Image::of(folder, "tool-middle.vmdk");
    middle.entry(redundant, 2, 0);
    middle.save(folder, "zero-and-absent");
    let mut packed = Image::of(folder, "tool-packed.vmdk");
    packed.entry(primary, 1, 0);
    packed.save(folder, "packed-and-absent");
}
