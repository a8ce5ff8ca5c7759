//! Closed streams as qemu-img reads them, where it is at hand: kept grains have the whole stream's bytes, the rest is zeros.

#[path = "common/broken.rs"]
mod broken;
mod common;

use broken::{stream, SECTOR};
use common::{run, Folder};
use std::fs;
use std::process::Command;

/// By a shell: under an emulator a program that is not there still seems to start.
fn there(program: &str) -> bool {
    let found = Command::new("sh")
        .arg("-c")
        .arg(format!("command -v {program}"))
        .output();
    found.map_or(false, |output| output.status.success())
}

fn as_raw(folder: &Folder, image: &str) -> Vec<u8> {
    let ran = Command::new("qemu-img")
        .args(["convert", "-f", "vmdk", "-O", "raw", image, "raw"])
        .current_dir(folder.path())
        .output()
        .expect("it starts");
    let told = String::from_utf8_lossy(&ran.stderr).into_owned();
    assert!(ran.status.success(), "{image}: {told}");
    fs::read(folder.at("raw")).expect("a raw disk")
}

#[test]
fn closed_streams_are_read_alike() {
    if !there("qemu-img") {
        assert!(std::env::var_os("ANHKHOVET_QEMU_IMG").is_none());
        println!("NOT RUN: closed streams by qemu-img, since it is not here");
        return;
    }
    let folder = Folder::new().with(&["vmdkstream.vmdk"]);
    let whole = as_raw(&folder, "vmdkstream.vmdk");
    let grain = 128 * SECTOR;
    // Where a grain's last sector ends, and which grain of the disk it is.
    let ends = [(130, 0), (132, 1), (134, 5), (135, 6)];
    for sectors in [128, 129, 130, 132, 133, 134, 135, 139, 144] {
        fs::write(folder.at("start"), &stream()[..sectors * SECTOR]).expect("written");
        run(folder.path(), &["close", "--force", "start", "-o", "out"]).well();
        let mut expected = vec![0; whole.len()];
        for (_, number) in ends.iter().filter(|(end, _)| *end <= sectors) {
            let bytes = number * grain..whole.len().min((number + 1) * grain);
            expected[bytes.clone()].copy_from_slice(&whole[bytes]);
        }
        assert!(as_raw(&folder, "out") == expected, "{sectors} sectors");
    }
}
