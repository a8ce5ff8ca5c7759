//! COWD images that tests make: the labs that are moved.
#![allow(dead_code)]

use crate::common::Folder;
use std::fs;

/// Sectors of a lab's disk, which ends inside of its third grain.
pub const CAPACITY: usize = 20;

/// A COWD image with grains of so many sectors, stored in turned order from sector 37 on; the second is absent. Each sector is
/// filled with a byte of its own.
pub fn lab(seed: u8, grain_size: usize) -> Vec<u8> {
    let mut image = vec![0; 512 * (37 + 2 * grain_size)];
    image[..4].copy_from_slice(b"COWD");
    let mut put = |at: usize, number: usize| {
        image[at..at + 4].copy_from_slice(&(number as u32).to_le_bytes());
    };
    let header = [
        (4, 1),
        (8, 3),
        (12, CAPACITY),
        (16, grain_size),
        (20, 4),
        (24, 1),
    ];
    let entries = [(4 * 512, 5), (5 * 512, 37 + grain_size), (5 * 512 + 8, 37)];
    header
        .into_iter()
        .chain(entries)
        .for_each(|(at, number)| put(at, number));
    for (sector, bytes) in image.chunks_mut(512).enumerate().skip(37) {
        bytes.fill(seed.wrapping_add(sector as u8));
    }
    image
}

/// What a lab of grains of 8 sectors reads as.
pub fn raw(seed: u8) -> Vec<u8> {
    let stored = |sectors: std::ops::Range<usize>| {
        sectors.flat_map(move |sector| vec![seed.wrapping_add(sector as u8); 512])
    };
    let mut raw: Vec<u8> = stored(45..53).collect();
    raw.resize(16 * 512, 0);
    raw.extend(stored(37..41));
    raw
}

/// Adds a folder for outputs, and labs that no move takes: with grains of four sectors, and one whose table ends the file.
pub fn add(folder: &Folder) {
    fs::create_dir(folder.at("moved")).expect("a folder");
    fs::write(folder.at("lab-1"), lab(1, 8)).expect("written");
    fs::write(folder.at("lab-2"), lab(2, 8)).expect("written");
    fs::write(folder.at("lab-of-4"), lab(3, 4)).expect("written");
    fs::write(folder.at("lab-cut"), &lab(4, 8)[..37 * 512]).expect("written");
}
