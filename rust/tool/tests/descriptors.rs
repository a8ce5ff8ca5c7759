//! `--descriptor`: the text beside a result, read back by the tool, and by qemu-img where it is at hand.

mod common;
#[path = "common/labs.rs"]
mod labs;
#[path = "common/outsiders.rs"]
mod outsiders;

use common::{run, Folder};
use outsiders::{converted, qemu_img};
use std::fs;

const CHAIN: [&str; 3] = ["tool-base.vmdk", "tool-middle.vmdk", "tool-top.vmdk"];

/// Commands that write a result `out`.
const COMMANDS: [&[&str]; 3] = [
    &["collapse", CHAIN[0], CHAIN[1], CHAIN[2], "-o", "out"],
    &["collapse", CHAIN[0], CHAIN[1], "-o", "out"],
    &["normal", CHAIN[1], "-o", "out"],
];

fn described(folder: &Folder, command: &[&str], more: &[&str]) -> common::Ran {
    run(
        folder.path(),
        &[command, &["--descriptor", "text.vmdk"], more].concat(),
    )
}

#[test]
fn the_tool_reads_it_back() {
    let folder = Folder::new().with(&CHAIN);
    for command in COMMANDS {
        let told = described(&folder, command, &["--force"]).well().text();
        let last = told.lines().last().expect("a line").to_string();
        assert_eq!(last, "text.vmdk: written, the descriptor of out");
        let said = run(folder.path(), &["describe", "text.vmdk"]).well().text();
        let lines: Vec<&str> = said.lines().collect();
        assert_eq!(lines[0], "descriptor: a file of its own");
        assert_eq!(lines[3], "parentCID: ffffffff (no parent)");
        assert_eq!(
            lines[6..],
            ["     0            0         2048 RW       SPARSE              0 there     out"]
        );
        let [alone, by_text] =
            ["out", "text.vmdk"].map(|disk| run(folder.path(), &["digest", disk]).well().text());
        assert_eq!(alone, by_text);
        let json = described(&folder, command, &["--force", "--json"])
            .well()
            .text();
        assert!(
            json.starts_with("{\"descriptor\":\"text.vmdk\",\"length\":"),
            "{json}"
        );
    }
}

#[test]
fn qemu_img_reads_the_same_bytes_by_it() {
    if !qemu_img() {
        return;
    }
    let folder = Folder::new()
        .with(&CHAIN)
        .with(&["monolithic-sparse-data.vmdk"]);
    let odd: &[&str] = &["normal", "monolithic-sparse-data.vmdk", "-o", "out"];
    for command in COMMANDS.into_iter().chain([odd]) {
        described(&folder, command, &["--force"]).well();
        run(folder.path(), &["raw", "out", "-o", "raw", "--force"]).well();
        let raw = fs::read(folder.at("raw")).expect("a raw disk");
        assert!(converted(&folder, "text.vmdk") == raw, "{command:?}");
        assert!(raw.iter().any(|byte| *byte != 0));
    }
}

/// It stands beside the result wherever that is, and names it without a folder.
#[test]
fn it_stands_beside_the_result() {
    let folder = Folder::new().with(&CHAIN);
    fs::create_dir(folder.at("labs")).expect("a folder");
    let command = ["normal", CHAIN[0], "-o", "labs/my lab.vmdk"];
    described(&folder, &command, &[]).well();
    assert_eq!(
        common::names(&folder.at("labs")),
        ["my lab.vmdk", "text.vmdk"]
    );
    run(folder.path(), &["check", "labs/text.vmdk"]).well();
}

#[test]
fn names_that_no_text_can_hold_are_told_before_anything_is_written() {
    let folder = Folder::new().with(&CHAIN);
    for name in ["a\"b", "a\\b", "line\nend", "line\rend"] {
        let ran = described(&folder, &["normal", CHAIN[0], "-o", name], &[]);
        ran.ended(2, "has a name that no descriptor can hold");
    }
    let ran = described(&folder, &["normal", CHAIN[0], "-o", "text.vmdk"], &[]);
    ran.ended(2, "is the result's own name");
    for name in ["labs/text", "/tmp/text", "..", "a\\b", ""] {
        let words = ["normal", CHAIN[0], "-o", "out", "--descriptor", name];
        let ran = run(folder.path(), &words);
        assert_eq!((ran.status, ran.out.len()), (Some(2), 0), "{}", ran.err);
    }
    assert_eq!(folder.names(), CHAIN);
}

#[test]
fn it_replaces_a_file_only_by_force_and_none_that_is_read() {
    let folder = Folder::new().with(&CHAIN);
    fs::write(folder.at("text.vmdk"), "old").expect("written");
    described(&folder, COMMANDS[0], &[]).ill("text.vmdk: exists already; --force replaces it");
    let words = [
        "normal",
        CHAIN[0],
        "-o",
        "out",
        "--force",
        "--descriptor",
        CHAIN[0],
    ];
    run(folder.path(), &words).ill("tool-base.vmdk: is one of the files that are read");
    assert_eq!(fs::read(folder.at("text.vmdk")).expect("a file"), b"old");
    assert_eq!(folder.names(), ["text.vmdk", CHAIN[0], CHAIN[1], CHAIN[2]]);
    // Nor does a refused image leave one behind.
    let words = ["normal", "text.vmdk", "-o", "out", "--descriptor", "other"];
    run(folder.path(), &words).ended(1, "refused");
    assert_eq!(folder.names().len(), 4);
    described(&folder, COMMANDS[0], &["--force"]).well();
    assert_eq!(folder.names().len(), 5);
}

#[test]
fn only_one_file_that_goes_to_kdmv_gets_one() {
    let folder = Folder::new().with(&CHAIN);
    fs::create_dir(folder.at("moved")).expect("a folder");
    let ran = described(&folder, &["move", CHAIN[0], "-o", "old"], &[]);
    ran.ended(
        2,
        "tool-base.vmdk: goes to COWD, and a descriptor is written of what goes to KDMV alone",
    );
    let ran = described(&folder, &["move", CHAIN[0], CHAIN[1], "-o", "moved"], &[]);
    ran.ended(
        2,
        "text.vmdk: is the name of one descriptor, and several files are to be written",
    );
    assert_eq!(folder.names(), ["moved", CHAIN[0], CHAIN[1], CHAIN[2]]);
}

#[test]
fn an_image_that_was_moved_to_kdmv_is_read_by_it() {
    let folder = Folder::new();
    fs::write(folder.at("lab"), labs::lab(9, 8)).expect("written");
    fs::create_dir(folder.at("moved")).expect("a folder");
    let told = described(&folder, &["move", "lab", "-o", "moved"], &[])
        .well()
        .text();
    assert!(
        told.contains("moved/text.vmdk: written, the descriptor of moved/lab\n"),
        "{told}"
    );
    run(folder.path(), &["raw", "moved/text.vmdk", "-o", "raw"]).well();
    assert!(fs::read(folder.at("raw")).expect("a raw disk") == labs::raw(9));
    if qemu_img() {
        assert!(converted(&folder, "moved/text.vmdk") == labs::raw(9));
    }
}
