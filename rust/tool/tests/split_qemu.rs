//! Disks of several files as qemu-img makes them, where it is at hand: every sector is compared with what it reads itself.

mod common;

use common::{run, Folder};
use std::fs::{self, File};
use std::io::Read;
use std::path::Path;
use std::process::Command;

/// By a shell: under an emulator a program that is not there still seems to start.
fn there(program: &str) -> bool {
    let found = Command::new("sh")
        .arg("-c")
        .arg(format!("command -v {program}"))
        .output();
    found.map_or(false, |output| output.status.success())
}

fn qemu(folder: &Path, words: &[&str]) {
    let ran = Command::new(words[0])
        .args(&words[1..])
        .current_dir(folder)
        .output()
        .expect("it starts");
    let told = String::from_utf8_lossy(&ran.stderr).into_owned();
    assert!(ran.status.success(), "{words:?}: {told}");
}

/// Compares the digests of all sectors of a disk with those of a raw file that qemu-img wrote.
fn same_bytes(folder: &Folder, disk: &str) {
    let converted = [
        "qemu-img", "convert", "-f", "vmdk", "-O", "raw", disk, "raw",
    ];
    qemu(folder.path(), &converted);
    let length = fs::metadata(folder.at("raw")).expect("a raw disk").len();
    let sectors = length / 512;
    let flat = format!(
        "# Disk DescriptorFile\nversion=1\nCID=1\nparentCID=ffffffff\ncreateType=\"monolithicFlat\"\nRW {sectors} FLAT \"raw\" 0\n"
    );
    fs::write(folder.at("raw.vmdk"), flat).expect("written");
    let digest = |disk: &str, to: &str| {
        let to = File::create(folder.at(to)).expect("a file");
        let ran = common::tool(folder.path())
            .args(["digest", disk])
            .stdout(to)
            .status();
        assert!(ran.expect("the tool starts").success());
    };
    digest(disk, "of-disk");
    digest("raw.vmdk", "of-raw");
    let [mut one, mut other] = ["of-disk", "of-raw"].map(|name| {
        let file = File::open(folder.at(name)).expect("digests");
        std::io::BufReader::with_capacity(1 << 20, file)
    });
    let (mut left, mut right) = (vec![0; 1 << 20], vec![0; 1 << 20]);
    loop {
        let count = one.read(&mut left).expect("read");
        other.read_exact(&mut right[..count]).expect("as long");
        assert_eq!(left[..count], right[..count], "{disk}");
        if count == 0 {
            return;
        }
    }
}

/// qemu-io writes a CID of its own over the descriptor. Where that has two digits fewer than the one before, or more, the end of
/// the old text is left behind the zero byte: that is refused, and cut off here.
fn cut_behind_zero(folder: &Folder) {
    let text = fs::read(folder.at("disk")).expect("a descriptor");
    let end = text.iter().position(|byte| *byte == 0);
    let (text, left) = text.split_at(end.unwrap_or(text.len()));
    if left.iter().any(|byte| *byte != 0) {
        let ran = run(folder.path(), &["check", "disk"]);
        assert_eq!(ran.status, Some(1));
        assert!(ran.text().contains("refused 31"), "{}", ran.text());
        fs::write(folder.at("disk"), text).expect("written");
    }
}

/// The raw file itself is hashed by another program.
fn raw_is_read_right(folder: &Folder, sector: u64) {
    let words = ["read", "raw.vmdk", &sector.to_string()];
    let read = run(folder.path(), &words).well().out.clone();
    let raw = File::open(folder.at("raw")).expect("a raw disk");
    let mut bytes = vec![0; 512];
    std::os::unix::fs::FileExt::read_exact_at(&raw, &mut bytes, 512 * sector).expect("read");
    assert_eq!(read, bytes);
}

#[test]
fn split_disks_of_qemu_img() {
    if !there("qemu-img") || !there("qemu-io") {
        assert!(std::env::var_os("ANHKHOVET_QEMU_IMG").is_none());
        println!("NOT RUN: disks of qemu-img, since it is not here");
        return;
    }
    let mib = 1 << 20;
    for (subformat, length) in [
        ("monolithicFlat", 3 * mib),
        ("twoGbMaxExtentFlat", 2048 * mib + 100 * 512),
        ("twoGbMaxExtentSparse", 2048 * mib + 200 * 512),
        ("twoGbMaxExtentSparse", mib + 512),
    ] {
        let folder = Folder::new();
        let option = format!("subformat={subformat}");
        let total = length.to_string();
        let create = [
            "qemu-img", "create", "-q", "-f", "vmdk", "-o", &option, "disk", &total,
        ];
        qemu(folder.path(), &create);
        let last = length - 512;
        for (at, pattern) in [
            (0, 0x41),
            (mib / 2, 0x42),
            (last - 1024, 0x43),
            (last, 0x44),
        ] {
            let write = format!("write -q -P {pattern} {at} 512");
            qemu(
                folder.path(),
                &["qemu-io", "-f", "vmdk", "-c", &write, "disk"],
            );
        }
        cut_behind_zero(&folder);
        run(folder.path(), &["check", "disk"]).well();
        same_bytes(&folder, "disk");
        for sector in [0, mib / 1024, last / 512] {
            raw_is_read_right(&folder, sector);
        }
    }
}
