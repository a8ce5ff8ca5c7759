//! Other programs, where they are at hand: qemu-img's raw disks, and whatever else reads what the tool wrote.
#![allow(dead_code)]

use crate::common::Folder;
use std::fs;
use std::path::Path;
use std::process::Command;

/// Whether a program is here, by a shell: under an emulator one that is not still seems to start. Where the gate has installed
/// it, it says so by this variable, and then no test may be left out for want of it.
pub fn there(program: &str, promised: &str) -> bool {
    let found = Command::new("sh")
        .arg("-c")
        .arg(format!("command -v {program}"))
        .output();
    let there = found.map_or(false, |output| output.status.success());
    if !there {
        assert!(std::env::var_os(promised).is_none(), "{program}");
        println!("NOT RUN: what needs {program}, since it is not here");
    }
    there
}

pub fn qemu_img() -> bool {
    there("qemu-img", "ANHKHOVET_QEMU_IMG")
}

/// What a program printed, which ended well.
pub fn ran(folder: &Path, words: &[&str]) -> String {
    let ran = Command::new(words[0])
        .args(&words[1..])
        .current_dir(folder)
        .output()
        .expect("it starts");
    let told = String::from_utf8_lossy(&ran.stderr).into_owned();
    assert!(ran.status.success(), "{words:?}: {told}");
    String::from_utf8_lossy(&ran.stdout).into_owned()
}

/// The raw disk that qemu-img makes of an image, whose parents it finds by itself.
pub fn converted(folder: &Folder, image: &str) -> Vec<u8> {
    let words = ["qemu-img", "convert", "-f", "vmdk", "-O", "raw"];
    ran(folder.path(), &[&words[..], &[image, "by-qemu"]].concat());
    fs::read(folder.at("by-qemu")).expect("a raw disk")
}
