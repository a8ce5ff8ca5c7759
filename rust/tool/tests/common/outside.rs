//! Images of which parts lie outside the file: a sample whose numbers lead past its end.
#![allow(dead_code)]

use crate::common::Folder;
use std::fs;

/// What they are made of.
pub const SAMPLE: &str = "tool-base.vmdk";

/// All five parts past the end, then the first of them mended, and so on.
pub const STEPS: [&str; 5] = [
    "five-past",
    "four-past",
    "three-past",
    "two-past",
    "copy-past",
];

/// Bytes of the sample that lead past its end, part by part: the descriptor's sectors, the directory's sector, the redundant
/// one's, and the entry of either that names its table.
const PARTS: [(usize, u8); 5] = [
    (38, 1),
    (59, 1),
    (51, 1),
    (26 * 512 + 3, 1),
    (21 * 512 + 3, 1),
];

/// The images, and a descriptor `past` that names the first five as extents.
pub fn add(folder: &Folder) {
    let sample = fs::read(folder.at(SAMPLE)).expect("a sample");
    let write = |name: &str, changes: &[(usize, u8)]| {
        let mut bytes = sample.clone();
        for (at, byte) in changes {
            bytes[*at] = *byte;
        }
        fs::write(folder.at(name), bytes).expect("written");
    };
    for (mended, name) in STEPS.into_iter().enumerate() {
        write(name, &PARTS[mended..]);
    }
    write("half-described", &[(36, 0)]);
    write("directory-0", &[(56, 0)]);
    describe(folder, "past", &STEPS, 2048);
}

/// A descriptor of images as extents of one size.
pub fn describe(folder: &Folder, name: &str, images: &[&str], sectors: u64) {
    let mut text =
        "# Disk DescriptorFile\nversion=1\nCID=1\nparentCID=ffffffff\ncreateType=\"custom\"\n"
            .to_string();
    for image in images {
        text += &format!("RW {sectors} SPARSE \"{image}\"\n");
    }
    fs::write(folder.at(name), text).expect("written");
}
