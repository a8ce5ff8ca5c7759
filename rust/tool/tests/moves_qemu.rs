//! Moved images as qemu-img reads them, where it is at hand: raw disks made of both kinds, compared byte by byte.

mod common;
#[path = "common/labs.rs"]
mod labs;

use common::{run, Folder};
use labs::{lab, raw};
use serde_json::Value;
use sha2::{Digest, Sha256};
use std::fs;
use std::process::Command;

/// By a shell: under an emulator a program that is not there still seems to start.
fn there(program: &str) -> bool {
    let found = Command::new("sh")
        .arg("-c")
        .arg(format!("command -v {program}"))
        .output();
    found.map_or(false, |output| output.status.success())
}

/// The raw disk that qemu-img makes of an image: a descriptor names it, as neither kind of result has one inside.
fn as_raw(folder: &Folder, image: &str, capacity: u64) -> Vec<u8> {
    let cowd = fs::read(folder.at(image))
        .expect("an image")
        .starts_with(b"COWD");
    let (create, kind) = if cowd {
        ("vmfsSparse", "VMFSSPARSE")
    } else {
        ("twoGbMaxExtentSparse", "SPARSE")
    };
    let text = format!(
        "# Disk DescriptorFile\nversion=1\nCID=fffffffe\nparentCID=ffffffff\ncreateType=\"{create}\"\n\
         RW {capacity} {kind} \"{image}\"\n"
    );
    fs::write(folder.at("disk.vmdk"), text).expect("written");
    let ran = Command::new("qemu-img")
        .args(["convert", "-f", "vmdk", "-O", "raw", "disk.vmdk", "raw"])
        .current_dir(folder.path())
        .output()
        .expect("it starts");
    let told = String::from_utf8_lossy(&ran.stderr).into_owned();
    assert!(ran.status.success(), "{image}: {told}");
    fs::read(folder.at("raw")).expect("a raw disk")
}

fn moved(folder: &Folder, from: &str, to: &str) -> String {
    let ran = run(folder.path(), &["move", "--json", from, "-o", to]);
    let said: Value = serde_json::from_slice(&ran.well().out).expect("an object");
    said["digest"].as_str().expect("a digest").to_string()
}

fn hash(bytes: &[u8]) -> String {
    let hash = Sha256::digest(bytes);
    hash.iter().map(|byte| format!("{byte:02x}")).collect()
}

#[test]
fn moved_images_are_read_alike() {
    if !there("qemu-img") {
        assert!(std::env::var_os("ANHKHOVET_QEMU_IMG").is_none());
        println!("NOT RUN: moved images by qemu-img, since it is not here");
        return;
    }
    let samples = [
        "cowd-s001.vmdk",
        "tool-base.vmdk",
        "monolithic-sparse-data.vmdk",
    ];
    let folder = Folder::new().with(&samples);
    fs::write(folder.at("lab"), lab(9, 8)).expect("written");
    let capacities = [100, 2048, 1000, labs::CAPACITY as u64];
    for (image, capacity) in samples.into_iter().chain(["lab"]).zip(capacities) {
        let before = as_raw(&folder, image, capacity);
        assert_eq!(before.len() as u64, 512 * capacity);
        let (there, back) = (format!("{image}-there"), format!("{image}-back"));
        let digests = [moved(&folder, image, &there), moved(&folder, &there, &back)];
        for (name, digest) in [&there, &back].into_iter().zip(digests) {
            assert!(as_raw(&folder, name, capacity) == before, "{name}");
            assert_eq!(digest, hash(&before), "{name}");
        }
    }
    assert!(as_raw(&folder, "lab", labs::CAPACITY as u64) == raw(9));
}
