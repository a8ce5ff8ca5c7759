//! Refusal 8 names the part of the file, whatever of it was read first.

mod common;
#[path = "common/outside.rs"]
mod outside;

use common::{run, Folder};
use std::fs;

/// Every command that judges all of an image, or of a disk with the image as its extent.
const COMMANDS: [&str; 8] = [
    "check image",
    "check --json image",
    "survey image",
    "normal image -o out",
    "collapse image image -o out",
    "mend --good primary image",
    "mend --good redundant image",
    "check disk",
];

fn told(folder: &Folder, words: &str, wanted: &str) {
    let ran = run(folder.path(), &words.split(' ').collect::<Vec<_>>());
    let text = ran.text() + &ran.err;
    assert!(text.contains(wanted), "{words}: {text}");
}

/// Two grains in 32 sectors. The directory stands at sector 10, where nothing is read before it is known to be one.
fn image(copy: u8, table: u8, redundant_table: u8) -> Vec<u8> {
    let mut image = vec![0; 32 * 512];
    image[..4].copy_from_slice(b"KDMV");
    for (at, byte) in [(4, 1), (12, 16), (20, 8), (45, 2), (48, copy), (56, 10)] {
        image[at] = byte;
    }
    image[10 * 512] = table;
    image[usize::from(copy) * 512] = redundant_table;
    image
}

/// The redundant directory is among what is read of every file: its first four sectors and its last three.
#[test]
fn the_lowest_part_is_named_though_a_higher_one_is_read_before() {
    let folder = Folder::new();
    outside::describe(&folder, "disk", &["image"], 16);
    for copy in [1, 2, 3, 29, 30, 31] {
        for (table, wanted) in [(29, "a primary table"), (12, "a redundant table")] {
            fs::write(folder.at("image"), image(copy, table, 29)).expect("written");
            for words in COMMANDS {
                let wanted = format!("{wanted} does not lie inside the file");
                told(&folder, words, &wanted);
            }
        }
        fs::write(folder.at("image"), image(copy, 12, 16)).expect("written");
        told(&folder, "check image", "accepted");
    }
}

/// Each command names the part, and its number in JSON; mended one after the other they are 1 to 5.
#[test]
fn mended_one_after_the_other() {
    let folder = Folder::new().with(&[outside::SAMPLE]);
    outside::add(&folder);
    let parts = [
        "the descriptor",
        "the directory",
        "the redundant directory",
        "a primary table",
        "a redundant table",
    ];
    for ((place, name), part) in (1..).zip(outside::STEPS).zip(parts) {
        fs::copy(folder.at(name), folder.at("image")).expect("copied");
        outside::describe(&folder, "disk", &["image"], 2048);
        for words in COMMANDS {
            let wanted = format!("{part} does not lie inside the file");
            told(&folder, words, &wanted);
        }
        let wanted = format!("\"number\":8,\"place\":{place},");
        told(&folder, "check --json image", &wanted);
        told(&folder, "check --json disk", &wanted);
        told(&folder, "survey --json image", &wanted);
    }
    told(&folder, "check tool-base.vmdk", "accepted");
}
