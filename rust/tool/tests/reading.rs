//! Reading: bytes themselves, lengths that are no multiple of a page, big disks, wrong use.

mod common;
#[path = "common/image.rs"]
mod image;

use common::{emulated, run, sample, samples, Folder};
use image::{Image, GRAIN};
use std::fs;

const CHAIN: [&str; 3] = ["tool-base.vmdk", "tool-middle.vmdk", "tool-top.vmdk"];

fn read(files: &[&str], sector: &str) -> Vec<u8> {
    let words = [&["read"], files, &[sector]].concat();
    let ran = run(&samples(), &words);
    ran.well();
    ran.out
}

#[test]
fn a_stored_sector_is_its_512_bytes() {
    assert_eq!(read(&CHAIN[..1], "0"), [b'A'; 512]);
    assert_eq!(read(&CHAIN[..1], "2"), [b'b'; 512]);
    assert_eq!(read(&CHAIN[..1], "255"), [b'C'; 512]);
}

#[test]
fn the_topmost_layer_that_is_not_absent_is_read() {
    assert_eq!(read(&CHAIN[..2], "2"), [b'b'; 512]);
    assert_eq!(read(&CHAIN, "2"), [0; 512]);
    assert_eq!(read(&CHAIN, "128"), [b'D'; 512]);
    assert_eq!(read(&CHAIN, "300"), [0; 512]);
    assert_eq!(read(&CHAIN, "400"), [b'E'; 512]);
    assert_eq!(read(&CHAIN, "2000"), [0; 512]);
}

#[test]
fn a_packed_sector_is_told_in_a_plain_word() {
    let ran = run(&samples(), &["read", "tool-packed.vmdk", "130"]);
    let image = fs::read(sample("tool-packed.vmdk")).expect("a sample");
    assert_eq!(ran.status, Some(0));
    assert_eq!(ran.out, image[128 * 512 + 12..][..85]);
    assert!(ran.err.contains("sector 130 is packed"), "{}", ran.err);
}

#[test]
fn an_output_has_the_same_bytes() {
    let folder = Folder::new().with(&["tool-base.vmdk"]);
    run(folder.path(), &["read", "tool-base.vmdk", "2", "-o", "two"]).well();
    assert_eq!(fs::read(folder.at("two")).expect("an output"), [b'b'; 512]);
    assert_eq!(folder.names(), ["tool-base.vmdk", "two"]);
}

/// Lengths of layers need be no multiple of a page, nor of a sector.
#[test]
fn a_chain_of_odd_lengths_reads_the_same() {
    let folder = Folder::new();
    for (number, name) in CHAIN.iter().enumerate() {
        let mut bytes = fs::read(sample(name)).expect("a sample");
        bytes.extend(vec![0xff; 100 + number]);
        fs::write(folder.at(name), bytes).expect("written");
    }
    for command in ["map", "digest"] {
        let words = [&[command], &CHAIN[..]].concat();
        let odd = run(folder.path(), &words);
        assert_eq!(odd.well().text(), run(&samples(), &words).well().text());
    }
}

/// Sectors of a big disk: 1 TiB, and 64 GiB by an emulator, which keeps some bytes for each page of it.
fn big() -> u64 {
    if emulated() {
        1 << 27
    } else {
        1 << 31
    }
}

/// A hole in a file that is copied is left out, and what stands after it is not.
#[test]
fn a_long_sparse_layer_of_odd_length() {
    let folder = Folder::new();
    let base = Image::new(&folder.at("base"), big());
    let far = base.start + big() - GRAIN;
    base.entry(big() / GRAIN - 1, far);
    base.put(512 * far, b"far away");
    base.length(512 * (far + GRAIN) + 1);
    Image::new(&folder.at("delta"), big());
    let last = (big() - GRAIN).to_string();
    let ran = run(folder.path(), &["read", "base", "delta", &last]);
    assert_eq!(&ran.well().out[..9], b"far away\0");
}

/// Four grains of a big disk: two stored in a row, one zero, and the last one far away in the file.
fn big_disk(folder: &Folder) -> Image {
    let disk = Image::new(&folder.at("disk"), big());
    let far = disk.start + big() - GRAIN;
    disk.entry(0, disk.start);
    disk.entry(1, disk.start + GRAIN);
    disk.entry(2, 1);
    disk.entry(big() / GRAIN - 1, far);
    disk.put(512 * far, b"far away");
    disk.length(512 * (far + GRAIN));
    disk
}

#[test]
fn a_disk_of_a_tebibyte_is_mapped() {
    let folder = Folder::new();
    let disk = big_disk(&folder);
    let start = disk.start;
    let far = start + big() - GRAIN;
    let line = |first: u64, sectors: u64, kind: &str, place: String| {
        format!("{first:>12} {sectors:>12} {:>5} {kind}{place}\n", 0)
    };
    let at = |sector: u64| format!(" {sector:>12} {:>14}", 512 * sector);
    let wanted = [
        "layer 0: disk\n".to_string(),
        format!("capacity {} sectors, grain size 128\n", big()),
        "       first      sectors layer kind     file sector    byte offset    size\n".to_string(),
        line(0, 256, "stored ", at(start)),
        line(256, 128, "zero", String::new()),
        line(384, big() - 512, "absent", String::new()),
        line(big() - GRAIN, 128, "stored ", at(far)),
    ];
    let ran = run(folder.path(), &["map", "disk"]);
    assert_eq!(ran.well().text(), wanted.concat());
    run(folder.path(), &["check", "disk"]).well();
}

/// What is written is as long as what is stored, and not as the disk.
#[test]
fn a_disk_of_a_tebibyte_is_collapsed() {
    let folder = Folder::new();
    let start = big_disk(&folder).start;
    Image::new(&folder.at("delta"), big()).entry(0, 1);
    run(folder.path(), &["collapse", "disk", "delta", "-o", "out"]).well();
    let length = fs::metadata(folder.at("out")).expect("an output").len();
    assert_eq!(length, 512 * (start + 2 * GRAIN));
    let last = (big() - GRAIN).to_string();
    let ran = run(folder.path(), &["read", "out", &last]);
    assert_eq!(&ran.well().out[..9], b"far away\0");
}

#[test]
fn wrong_use_is_status_2() {
    let wrong: [&[&str]; 9] = [
        &[],
        &["sector", "tool-base.vmdk"],
        &["sector", "tool-base.vmdk", "two"],
        &["sector", "tool-base.vmdk", "-1"],
        &["sector", "tool-base.vmdk", "18446744073709551616"],
        &["check"],
        &["frobnicate", "tool-base.vmdk"],
        &["read", "tool-base.vmdk", "2", "--force"],
        &["check", "--verbose", "tool-base.vmdk"],
    ];
    for words in wrong {
        let ran = run(&samples(), words);
        assert_eq!((ran.status, ran.out.len()), (Some(2), 0), "{words:?}");
        assert!(!ran.err.is_empty(), "{words:?}");
    }
}

#[test]
fn help_names_every_command() {
    let help = run(&samples(), &["--help"]).well().text();
    let commands = [
        "check", "sector", "explain", "read", "map", "digest", "collapse", "normal", "describe",
    ];
    for command in commands {
        assert!(help.contains(command), "{help}");
        let about = run(&samples(), &[command, "--help"]);
        assert!(about.well().text().contains("--json"));
    }
}

#[test]
fn a_standard_output_that_takes_nothing_is_a_failure() {
    let full = fs::File::options().write(true).open("/dev/full");
    let status = common::tool(&samples())
        .args(["map", "tool-base.vmdk"])
        .stdout(full.expect("/dev/full"))
        .output();
    common::Ran::of(status.expect("the tool starts")).ill("standard output");
}
