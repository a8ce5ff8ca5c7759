//! `raw`, `digest --whole` and `read --count`: the disk's bytes as they are on it.

mod common;
#[path = "common/disks.rs"]
mod disks;
#[path = "common/image.rs"]
mod image;
#[path = "common/outsiders.rs"]
mod outsiders;

use common::{emulated, run, tool, Folder};
use image::{Image, GRAIN};
use outsiders::{converted, qemu_img, ran};
use std::fs;
use std::os::unix::fs::MetadataExt;

const CHAIN: [&str; 3] = ["tool-base.vmdk", "tool-middle.vmdk", "tool-top.vmdk"];
const PACKED: &str = "tool-packed.vmdk: has packed grains, which are not unpacked here, so the disk's own bytes cannot be given";

/// The raw disk of some layers, by the tool.
fn raw(folder: &Folder, layers: &[&str]) -> Vec<u8> {
    let words = [&["raw"], layers, &["-o", "raw", "--force"]].concat();
    run(folder.path(), &words).well();
    fs::read(folder.at("raw")).expect("a raw disk")
}

/// The samples that qemu-img reads as the layers that it finds by their texts.
#[test]
fn raw_disks_are_those_of_qemu_img() {
    if !qemu_img() {
        return;
    }
    let more = [
        "monolithic-sparse-data.vmdk",
        "zeroed-grain-data.vmdk",
        "chain-base.vmdk",
        "chain-middle.vmdk",
        "chain-top.vmdk",
    ];
    let folder = Folder::new().with(&CHAIN).with(&more);
    let text = "# Disk DescriptorFile\nversion=1\nCID=1\nparentCID=ffffffff\ncreateType=\"twoGbMaxExtentSparse\"\n\
        RW 2048 SPARSE \"tool-base.vmdk\"\nRW 1000 SPARSE \"monolithic-sparse-data.vmdk\"\n";
    fs::write(folder.at("split"), text).expect("written");
    let disks: [&[&str]; 7] = [
        &CHAIN[..1],
        &CHAIN[..2],
        &CHAIN,
        &more[..1],
        &more[1..2],
        &more[2..],
        &["split"],
    ];
    for layers in disks {
        let top = layers.last().expect("a layer");
        let by_qemu = converted(&folder, top);
        assert!(raw(&folder, layers) == by_qemu, "{layers:?}");
        let sum = ran(folder.path(), &["sha256sum", "by-qemu"]);
        let words = [&["digest", "--whole"], layers].concat();
        let digest = run(folder.path(), &words).well().text();
        assert_eq!(digest, format!("disk {}\n", &sum[..64]), "{layers:?}");
        // A list that sha256sum made of it agrees, whatever the file was called.
        fs::write(folder.at("sums"), sum).expect("written");
        let compared = run(folder.path(), &[&words[..], &["--list", "sums"]].concat());
        assert_eq!(compared.well().text(), "sums: the disk's digest agrees\n");
    }
}

#[test]
fn zero_and_absent_sectors_and_holes_of_the_file_are_holes() {
    let folder = Folder::new().with(&CHAIN);
    let bytes = raw(&folder, &CHAIN);
    let facts = fs::metadata(folder.at("raw")).expect("a raw disk");
    assert_eq!((bytes.len(), facts.len()), (1 << 20, 1 << 20));
    // Two grains are stored; a file system may need a block more for itself.
    assert!(facts.blocks() <= 256 + 16, "{}", facts.blocks());
    assert_eq!(bytes[64 << 10..128 << 10], [b'D'; 64 << 10]);
    assert_eq!(bytes[192 << 10..256 << 10], [b'E'; 64 << 10]);
    assert_eq!(bytes.iter().filter(|byte| **byte != 0).count(), 128 << 10);

    // A stored grain that is a hole in the file, and one that is none.
    let disk = Image::new(&folder.at("disk"), 4 * GRAIN);
    disk.entry(1, disk.start);
    disk.entry(3, disk.start + GRAIN);
    disk.put(512 * (disk.start + GRAIN) + 65535, b"x");
    disk.length(512 * (disk.start + 2 * GRAIN));
    let told = run(folder.path(), &["raw", "disk", "-o", "sparse", "--json"]);
    let bytes = fs::read(folder.at("sparse")).expect("a raw disk");
    assert_eq!(bytes.len(), 4 << 16);
    assert_eq!(
        bytes.iter().position(|byte| *byte != 0),
        Some((4 << 16) - 1)
    );
    let facts = fs::metadata(folder.at("sparse")).expect("a raw disk");
    assert!(facts.blocks() <= 128 + 16, "{}", facts.blocks());
    assert!(told.well().text().contains("\"length\":262144"));
}

/// What the tool copies is taken from wherever it stands: grains in any order, and the end of a disk inside of one.
#[test]
fn grains_in_any_order_come_to_their_places() {
    let folder = Folder::new();
    let disk = Image::new(&folder.at("disk"), 8 * GRAIN - 5);
    for (grain, place) in [(0, 3), (1, 4), (2, 0), (5, 2), (7, 1)] {
        disk.entry(grain, disk.start + place * GRAIN);
        let bytes = vec![b'a' + grain as u8; 65536];
        disk.put(512 * (disk.start + place * GRAIN), &bytes);
    }
    disk.length(512 * (disk.start + 5 * GRAIN));
    let bytes = raw(&folder, &["disk"]);
    assert_eq!(bytes.len() as u64, 512 * (8 * GRAIN - 5));
    for (grain, part) in bytes.chunks(65536).enumerate() {
        let byte = match grain {
            0 | 1 | 2 | 5 | 7 => b'a' + grain as u8,
            _ => 0,
        };
        assert!(part.iter().all(|other| *other == byte), "grain {grain}");
    }
}

#[test]
fn a_big_disk_of_holes_is_written_at_once() {
    let folder = Folder::new();
    let sectors = if emulated() { 1 << 23 } else { 1 << 31 };
    let disk = Image::new(&folder.at("disk"), sectors);
    disk.entry(sectors / GRAIN - 1, disk.start);
    disk.put(512 * disk.start, b"far away");
    disk.length(512 * (disk.start + GRAIN));
    run(folder.path(), &["raw", "disk", "-o", "big"]).well();
    let facts = fs::metadata(folder.at("big")).expect("a raw disk");
    assert_eq!(facts.len(), 512 * sectors);
    assert!(facts.blocks() <= 128 + 64, "{}", facts.blocks());
}

#[test]
fn packed_grains_are_refused_in_words() {
    let folder = Folder::new().with(&["tool-packed.vmdk"]);
    let whole = run(folder.path(), &["digest", "--whole", "tool-packed.vmdk"]);
    let raw = run(folder.path(), &["raw", "tool-packed.vmdk", "-o", "out"]);
    let row = run(
        folder.path(),
        &["read", "tool-packed.vmdk", "0", "--count", "129"],
    );
    for ran in [&whole, &raw, &row] {
        ran.ended(1, PACKED);
        assert!(ran.out.is_empty());
    }
    let json = run(
        folder.path(),
        &["raw", "--json", "tool-packed.vmdk", "-o", "out"],
    );
    assert_eq!(json.text(), format!("{{\"failed\":\"{PACKED}\"}}\n"));
    assert_eq!(folder.names(), ["tool-packed.vmdk"]);
    // Sectors that are not packed are there.
    let row = run(
        folder.path(),
        &["read", "tool-packed.vmdk", "0", "--count", "128"],
    );
    assert_eq!(row.well().out, [0; 128 * 512]);
}

#[test]
fn rows_of_sectors_are_parts_of_the_raw_disk() {
    let folder = Folder::new().with(&CHAIN);
    let bytes = raw(&folder, &CHAIN);
    let rows = [
        (0, 1),
        (127, 2),
        (100, 300),
        (0, 2048),
        (2047, 1),
        (383, 1000),
    ];
    for (first, count) in rows {
        let words = [first, count].map(|number: usize| format!("{number:#x}"));
        let words = [&["read"], &CHAIN[..], &[&words[0], "--count", &words[1]]].concat();
        let part = &bytes[512 * first..512 * (first + count)];
        assert!(run(folder.path(), &words).well().out == part, "{words:?}");
        let to_file = [&words[..], &["-o", "row", "--force"]].concat();
        run(folder.path(), &to_file).well();
        assert!(fs::read(folder.at("row")).expect("a row") == part);
        let json = run(folder.path(), &[&words[..], &["--json"]].concat());
        let said: serde_json::Value = serde_json::from_slice(&json.well().out).expect("an object");
        let sectors = said["sectors"].as_array().expect("a list");
        assert_eq!(sectors.len(), count);
        for (number, sector) in sectors.iter().enumerate() {
            assert_eq!(sector["sector"], first + number);
            let hex: String = part[512 * number..512 * (number + 1)]
                .iter()
                .map(|byte| format!("{byte:02x}"))
                .collect();
            assert_eq!(sector["bytes"], hex);
        }
    }
}

#[test]
fn a_row_that_the_disk_does_not_have_is_refused() {
    let folder = Folder::new()
        .with(&CHAIN)
        .with(&["tool-packed.vmdk", "cowd-s001.vmdk"]);
    disks::add(&folder);
    let past = "refused 20: the sector is at or past the end of the disk (the last sector is 2047)";
    for (first, count) in [
        ("2047", "2"),
        ("2048", "1"),
        ("0", "2049"),
        ("1", "0xffffffffffffffff"),
    ] {
        let words = ["read", CHAIN[0], first, "--count", count];
        assert!(run(folder.path(), &words).ended(1, past).out.is_empty());
    }
    run(folder.path(), &["read", CHAIN[0], "0", "--count", "0"]).ended(2, "at least 1");
    // Of a disk of several files the extents that hold the row are opened, and no other: one after them is not there.
    let lines = "RW 2048 SPARSE \"tool-base.vmdk\"\nRW 8 ZERO\nRW 4 FLAT \"plain\" 1\nRW 9 FLAT \"missing\" 0\n";
    disks::descriptor(&folder, "parts", lines);
    let row = run(folder.path(), &["read", "parts", "2047", "--count", "13"]);
    assert_eq!(row.well().out[..9 * 512], [0; 9 * 512]);
    assert_eq!(
        row.out[9 * 512..],
        fs::read(folder.at("plain")).expect("a file")[512..5 * 512]
    );
    run(folder.path(), &["read", "parts", "2047", "--count", "14"]).ill("missing");
    run(folder.path(), &["read", "parts", "2060", "--count", "10"])
        .ended(1, "the last sector is 2068");
}

/// A target is looked at as others are, and a file that is read is no target.
#[test]
fn raw_goes_by_the_rules_for_outputs() {
    let folder = Folder::new().with(&CHAIN[..1]);
    let raw = |to: &str, more: &[&str]| {
        run(
            folder.path(),
            &[&["raw", CHAIN[0], "-o", to], more].concat(),
        )
    };
    raw(CHAIN[0], &["--force"]).ill("is one of the files that are read");
    raw("-", &[]).ended(2, "cannot go to `-`");
    raw("raw", &[]).well();
    raw("raw", &[]).ill("exists already");
    raw("raw", &["--force"]).well();
    assert_eq!(folder.names(), ["raw", CHAIN[0]]);
    let cut = fs::read(folder.at(CHAIN[0])).expect("a sample");
    fs::write(folder.at("cut"), &cut[..cut.len() - 512]).expect("written");
    let refused = run(folder.path(), &["raw", "cut", "-o", "other"]);
    refused.ended(1, "refused 9 at grain 1");
    assert_eq!(folder.names(), ["cut", "raw", CHAIN[0]]);
}

/// A limit on the length of files stands for a disk that is full meanwhile.
#[test]
fn a_disk_that_takes_no_more_leaves_no_part() {
    let folder = Folder::new().with(&CHAIN[..1]);
    let mut limited = std::process::Command::new("sh");
    let words = "trap '' XFSZ; ulimit -f 64; exec \"$@\"";
    let program = tool(folder.path());
    let output = limited
        .args(["-c", words, "sh"])
        .arg(program.get_program())
        .args(program.get_args())
        .args(["raw", CHAIN[0], "-o", "raw"])
        .current_dir(folder.path())
        .output();
    let ran = common::Ran::of(output.expect("a shell"));
    ran.ill("cannot be written, so there is no output");
    assert_eq!(folder.names(), [CHAIN[0]]);
}
