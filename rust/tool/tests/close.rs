//! `close`: what it writes of real streams and of long ones, what it leaves alone, and the edge of 2^31 sectors.

#[path = "common/broken.rs"]
mod broken;
mod common;

use broken::{stream, SECTOR};
use common::{run, Folder};
use serde_json::Value;
use std::fs::{self, File};
use std::os::unix::fs::{FileExt, MetadataExt};

/// What the library keeps and adds, of bytes in memory.
fn closed(start: &[u8]) -> Vec<u8> {
    let mut tail = vec![0; 1 << 16];
    let closed = anhkhovet::close(start, &mut tail).expect("closed");
    [closed.kept(start), &tail[..closed.length as usize]].concat()
}

fn told(folder: &Folder, from: &str, to: &str) -> Value {
    let ran = run(
        folder.path(),
        &["close", "--json", "--force", from, "-o", to],
    );
    serde_json::from_slice(&ran.well().out).expect("an object")
}

/// At every marker and about it, and some places between.
#[test]
fn what_the_library_keeps() {
    let folder = Folder::new();
    let whole = stream();
    let cuts = (128..=145).flat_map(|sector| [0, 1, 16, 300].map(|more| sector * SECTOR + more));
    for cut in cuts.filter(|cut| *cut <= whole.len()) {
        fs::write(folder.at("start"), &whole[..cut]).expect("written");
        let said = told(&folder, "start", "out");
        let expected = closed(&whole[..cut]);
        assert!(
            fs::read(folder.at("out")).expect("an image") == expected,
            "{cut}"
        );
        assert_eq!(said["length"], expected.len());
        assert_eq!(said["of_sectors"], cut / SECTOR);
        let grains = [130, 132, 134, 135]
            .iter()
            .filter(|end| **end * SECTOR <= cut);
        let grains = grains.count();
        let covered = [0, 128, 256, 768, 771][grains];
        assert_eq!(
            (&said["grains"], &said["virtual_sectors"]),
            (&grains.into(), &covered.into())
        );
        let ran = run(folder.path(), &["check", "out"]);
        assert!(ran.well().text().contains("accepted"));
        assert!(fs::read(folder.at("start")).expect("the start") == whole[..cut]);
    }
}

/// A start of a disk of 2^31 sectors in grains of 2,048, with no block yet.
fn header() -> Vec<u8> {
    let mut header = vec![0; 2 * SECTOR];
    header[..4].copy_from_slice(b"KDMV");
    let numbers = [
        (4, 3),
        (8, 0x30000),
        (12, 1 << 31),
        (20, 2048),
        (44, 512),
        (64, 2),
    ];
    for (at, number) in numbers {
        header[at..at + 4].copy_from_slice(&u32::to_le_bytes(number));
    }
    header[56..64].fill(0xff);
    header[77] = 1;
    header
}

fn marker(first: u64, size: u32) -> Vec<u8> {
    [&first.to_le_bytes()[..], &size.to_le_bytes()].concat()
}

/// A file with these parts, and holes up to a length.
fn sparse(folder: &Folder, name: &str, length: u64, parts: &[(u64, Vec<u8>)]) {
    let file = File::create(folder.at(name)).expect("a file");
    file.set_len(length).expect("a length");
    for (at, bytes) in parts {
        file.write_all_at(bytes, *at).expect("written");
    }
}

#[test]
fn as_many_sectors_as_can_be_closed() {
    let folder = Folder::new();
    let parts = [(0, header()), (1024, marker(4096, 9))];
    sparse(&folder, "start", 1 << 40, &parts);
    let said = told(&folder, "start", "out");
    assert_eq!((&said["sectors"], &said["grains"]), (&3.into(), &1.into()));
    assert_eq!(
        (&said["of_sectors"], &said["virtual_sectors"]),
        (&(1u64 << 31).into(), &6144.into())
    );
    sparse(&folder, "start", (1 << 40) + 511, &parts);
    told(&folder, "start", "out");
    sparse(&folder, "start", (1 << 40) + 512, &parts);
    let ran = run(folder.path(), &["close", "start", "-o", "none"]);
    ran.ended(1, "start: refused 41")
        .ended(1, "it has 2147483649 sectors");
    assert_eq!(folder.names(), ["out", "start"]);
}

/// Payloads are neither judged nor, where they are holes, read: three of 4 GiB take no time and no room.
#[test]
fn payloads_are_not_read() {
    let folder = Folder::new();
    let grain = 1 << 32;
    let at = |number: u64| 1024 + number * grain;
    // 12 bytes of marker and the payload fill their sectors.
    let mut parts = vec![(0, header())];
    parts.extend((0..3).map(|number| (at(number), marker(2048 * number, u32::MAX - 11))));
    sparse(&folder, "start", at(3) - 1, &parts);
    let said = told(&folder, "start", "out");
    assert_eq!(
        (&said["grains"], &said["sectors"]),
        (&2.into(), &(at(2) / 512).into())
    );
    let facts = fs::metadata(folder.at("out")).expect("an image");
    assert!(facts.len() > 2 * grain && facts.blocks() * 512 < 1 << 24);
    run(folder.path(), &["check", "out"]).well();
}
