//! Images whose disk was still open when they were copied: samples with another dirty number.
#![allow(dead_code)]

use crate::common::Folder;
use crate::disks::{descriptor, lab};
use std::fs;

/// The samples that they are made of, and the one with a footer among them.
pub const SAMPLES: [&str; 4] = [
    "cowd-s001.vmdk",
    "tool-base.vmdk",
    "tool-middle.vmdk",
    STREAM,
];
pub const STREAM: &str = "vmdkstream.vmdk";

/// The place of the dirty byte of a KDMV image, and of the four of a COWD image.
pub const KDMV: usize = 72;
pub const COWD: usize = 1648;

/// What stands after a verdict, and what is told beside an answer.
pub const REMARK: &str = "; the disk was still open when it was copied";
pub const NOTE: &str =
    "the disk was still open when it was copied: shut the machine down and copy it again";

/// Copies a file of the folder, with bytes put at places.
pub fn changed(folder: &Folder, from: &str, to: &str, bytes: &[(usize, u8)]) {
    let mut image = fs::read(folder.at(from)).expect("an image");
    for (at, byte) in bytes {
        image[*at] = *byte;
    }
    fs::write(folder.at(to), image).expect("written");
}

/// The place of the dirty byte in the footer.
pub fn footer(folder: &Folder) -> usize {
    let length = fs::metadata(folder.at(STREAM)).expect("a sample").len();
    length as usize - 1024 + KDMV
}

/// Adds such images, and a disk of several files that has some, to a folder that has the samples.
pub fn add(folder: &Folder) {
    changed(folder, "tool-base.vmdk", "open-base", &[(KDMV, 1)]);
    changed(folder, "tool-base.vmdk", "open-255", &[(KDMV, 255)]);
    changed(folder, "tool-middle.vmdk", "open-middle", &[(KDMV, 2)]);
    // The low byte of the number is 0.
    changed(folder, "cowd-s001.vmdk", "open-cowd", &[(COWD + 1, 1)]);
    lab(folder);
    changed(folder, "lab.vmdk", "open-lab", &[(KDMV, 1)]);
    let footer = footer(folder);
    changed(folder, STREAM, "open-stream", &[(KDMV, 1), (footer, 1)]);
    changed(folder, STREAM, "half-stream", &[(KDMV, 1)]);
    let image = fs::read(folder.at("open-base")).expect("an image");
    fs::write(folder.at("open-cut"), &image[..image.len() - 512]).expect("written");
    // Plain sectors are no image, whatever they begin with.
    let extents = "RW 2048 SPARSE \"open-base\"\n\
        RW 8 ZERO\n\
        RW 8 FLAT \"open-base\" 0\n\
        RW 2048 SPARSE \"tool-base.vmdk\"\n\
        RW 100 SPARSE \"open-lab\"\n";
    descriptor(folder, "open-disk", extents);
    let torn = format!("{extents}RW 2048 SPARSE \"open-cut\"\nNOACCESS 2048 SPARSE \"open-255\"\n");
    descriptor(folder, "torn-disk", &torn);
}
