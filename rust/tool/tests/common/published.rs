//! Images that meet the lab profile, and that miss it by a little.
#![allow(dead_code)]

use crate::common::Folder;
use std::fs;

/// Where the gap of a disk with one table begins, and the first grain, in bytes.
pub const GAP: usize = 6 * 512;
pub const V: usize = 128 * 512;

/// Three grains of 128 sectors: stored at 128, zero, stored at 256. Each sector is filled with its number.
pub fn published() -> Vec<u8> {
    let mut image = vec![0; 384 * 512];
    for (sector, bytes) in image.chunks_mut(512).enumerate().skip(128) {
        bytes.fill(sector as u8);
    }
    image[..4].copy_from_slice(b"KDMV");
    let header = [
        (4, 2),
        (8, 5),
        (12, 384),
        (20, 128),
        (44, 512),
        (56, 1),
        (64, 128),
    ];
    let entries = [(512, 2), (1024, 128), (1028, 1), (1032, 256)];
    for (at, number) in header.into_iter().chain(entries) {
        put(&mut image, at, number);
    }
    image[73..77].copy_from_slice(b"\n \r\n");
    image
}

pub fn put(image: &mut [u8], at: usize, number: u32) {
    image[at..at + 4].copy_from_slice(&number.to_le_bytes());
}

/// Adds an image that meets it, and others that have one thing changed.
pub fn add(folder: &Folder) {
    let write = |name: &str, image: &[u8]| fs::write(folder.at(name), image).expect("written");
    let with = |changes: &[(usize, u32)]| {
        let mut image = published();
        changes
            .iter()
            .for_each(|(at, number)| put(&mut image, *at, *number));
        image
    };
    write("published", &published());
    write("published-padded", &with(&[(100, 1)]));
    write("published-gap", &with(&[(V - 4, 1 << 24)]));
    write("published-longer", &[published(), vec![0]].concat());
    write("published-sector", &[published(), vec![0; 512]].concat());
    write("published-cut", &with(&[(1024, 0), (1032, 0)])[..V - 512]);
    write("published-turned", &with(&[(1024, 256), (1032, 128)]));
    write("published-odd", &with(&[(12, 383)]));
}
