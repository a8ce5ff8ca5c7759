//! Images to be drawn, and what is written for them.
#![allow(dead_code)]

use crate::common::{run, sample, Folder};
use std::fs;

pub const CHAIN: [&str; 3] = ["tool-base.vmdk", "tool-middle.vmdk", "tool-top.vmdk"];

/// Writes bytes to places of a copy of a sample.
pub fn changed(folder: &Folder, name: &str, to: &str, changes: &[(usize, &[u8])]) {
    let mut bytes = fs::read(sample(name)).expect("a sample");
    for (at, new) in changes {
        bytes[*at..at + new.len()].copy_from_slice(new);
    }
    fs::write(folder.at(to), bytes).expect("written");
}

/// The samples of a chain, and one whose grain 1 begins on the last sector of grain 0, by both its tables.
pub fn folder() -> Folder {
    let folder = Folder::new().with(&CHAIN);
    changed(
        &folder,
        "tool-base.vmdk",
        "twice.vmdk",
        &[(13828, &[255, 0]), (11268, &[255, 0])],
    );
    folder
}

pub fn markup(folder: &Folder, files: &[&str], to: &str) -> String {
    let words = [&["picture"], files, &["-o", to]].concat();
    let ran = run(folder.path(), &words);
    assert_eq!((ran.status, ran.err.as_str()), (Some(0), ""), "{files:?}");
    fs::read_to_string(folder.at(to)).expect("a picture")
}
