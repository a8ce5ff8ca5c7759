//! COWD: every command but `move` refuses it with 43, in words that name `move`; a VMFSSPARSE extent by its line alone.

mod common;
#[path = "common/disks.rs"]
mod disks;

use common::{run, Folder, Ran};
use serde_json::Value;
use std::fs;

const OLD: &str = "cowd-s001.vmdk";
const SENTENCE: &str =
    "it is a COWD image, or by its line an extent of one, and those are only moved to KDMV";
const MOVE: &str = "`anhkhovet move FILE -o OUT` writes it as KDMV";

/// Every command but `move`, with `old` in place of an image.
const COMMANDS: [&str; 25] = [
    "check old",
    "header old",
    "survey old",
    "profile old",
    "sector old 0",
    "sector old 9999999",
    "explain old 0",
    "explain old 9999999",
    "read old 0",
    "read old 0 -o out",
    "read old 0 --count 2",
    "map old",
    "map --coverage old",
    "digest old",
    "digest --grain old --list list",
    "digest --whole old",
    "raw old -o out",
    "collapse old tool-base.vmdk -o out",
    "collapse tool-base.vmdk old -o out",
    "normal old -o out",
    "mend --good primary old -o out",
    "describe old",
    "close old -o out",
    "picture old -o out",
    "picture tool-base.vmdk old -o out",
];

fn folder() -> Folder {
    let folder = Folder::new().with(&disks::SAMPLES);
    fs::copy(folder.at(OLD), folder.at("old")).expect("a copy");
    fs::write(folder.at("list"), "").expect("written");
    folder
}

fn told(folder: &Folder, words: &str) -> Ran {
    run(folder.path(), &words.split(' ').collect::<Vec<_>>())
}

/// The refusal in an object: of a command on all files, or of the only file of a list.
fn refused(ran: &Ran) -> Value {
    let mut said: Value = serde_json::from_slice(&ran.out).expect("one object");
    match said.get_mut("files") {
        Some(files) => files[0]["refused"].take(),
        None => said["refused"].take(),
    }
}

#[test]
fn every_command_names_move() {
    let folder = folder();
    let before = folder.names();
    for words in COMMANDS {
        let ran = told(&folder, words);
        let status = if words.starts_with("survey") { 0 } else { 1 };
        assert_eq!(ran.status, Some(status), "{words}");
        let text = ran.text() + &ran.err;
        let line = format!("refused 43: {SENTENCE} ({MOVE})");
        assert!(text.contains("old") && text.contains(&line), "{text}");
        let refused = refused(&told(&folder, &format!("--json {words}")));
        assert_eq!(refused["number"], 43, "{words}");
        assert_eq!(refused["place"], 0, "{words}");
        assert_eq!(refused["file"], "old", "{words}");
        assert_eq!(refused["sentence"], SENTENCE, "{words}");
        assert_eq!(refused["detail"], MOVE, "{words}");
        assert_eq!(folder.names(), before, "{words}");
    }
    // No command is left out.
    let help = run(folder.path(), &["--help"]).well().text();
    let (_, commands) = help.split_once("Commands:").expect("the commands");
    let commands = commands.lines().skip(1).take_while(|line| !line.is_empty());
    for name in commands.filter_map(|line| line.split_whitespace().next()) {
        let tried = |words: &&str| words.split(' ').next() == Some(name);
        let takes = COMMANDS.iter().any(tried);
        // These two take no image.
        let others = ["move", "help", "refusals"];
        assert!(takes || others.contains(&name), "{name}");
    }
}

/// Whatever its header says, from 2,048 bytes on; a shorter file has none. A move judges it by its own rules.
#[test]
fn the_magic_and_the_length_decide() {
    let folder = folder();
    let mut noise = vec![0xff; 2048];
    noise[..4].copy_from_slice(b"COWD");
    for (length, number, moved) in [(4, 1, 1), (30, 1, 1), (2047, 1, 1), (2048, 43, 3)] {
        fs::write(folder.at("old"), &noise[..length]).expect("written");
        for words in COMMANDS {
            let refused = refused(&told(&folder, &format!("--json {words}")));
            assert_eq!(refused["number"], number, "{words} {length}");
        }
        let refused = refused(&told(&folder, "--json move old -o out"));
        assert_eq!(refused["number"], moved, "{length}");
    }
    fs::write(folder.at("old"), &noise[..3]).expect("written");
    let refused = refused(&told(&folder, "--json move old -o out"));
    assert_eq!(refused["number"], 1);
}

/// In a chain the topmost such layer is named.
#[test]
fn layers() {
    let folder = folder();
    for (layers, name) in [
        ("old tool-base.vmdk", "old"),
        ("tool-base.vmdk old", "old"),
        ("old cowd-s001.vmdk", OLD),
    ] {
        for command in ["sector {} 0", "map {}", "digest --grain {}"] {
            let words = command.replace("{}", layers);
            told(&folder, &words).ended(1, &format!("anhkhovet: {name}: refused 43: "));
        }
    }
    // Collapse judges the lower one first.
    let ran = told(&folder, "collapse old cowd-s001.vmdk -o out");
    ran.ended(1, "anhkhovet: old: refused 43: ");
    let ran = told(&folder, "collapse tool-base.vmdk cowd-s001.vmdk old -o out");
    ran.ended(1, "anhkhovet: cowd-s001.vmdk: refused 43: ");
}

/// A disk whose extents are VMFSSPARSE: with a COWD file, without a file, with another one, and NOACCESS.
#[test]
fn extents_are_refused_by_their_lines() {
    let folder = folder();
    disks::add(&folder);
    let how = "`anhkhovet move FILE -o OUT` writes a COWD file as KDMV, and the line of that one says SPARSE";
    for (sector, extent, file) in [
        (8, 1, OLD),
        (107, 1, OLD),
        (108, 2, "nobody-opens-it"),
        (208, 3, "tool-base.vmdk"),
    ] {
        for command in ["sector", "read"] {
            let ran = told(&folder, &format!("{command} never-moved {sector}"));
            let line = format!(
                "anhkhovet: never-moved: extent {extent}: {file}: refused 43: {SENTENCE} ({how})\n"
            );
            assert_eq!((ran.status, ran.err), (Some(1), line));
            let refused = refused(&told(
                &folder,
                &format!("--json {command} never-moved {sector}"),
            ));
            assert_eq!(refused["number"], 43);
            assert_eq!(refused["extent"], extent);
            assert_eq!(refused["file"], file);
            assert_eq!(refused["detail"], how);
        }
    }
    told(&folder, "sector never-moved 308").ended(1, "never-moved: extent 4: refused 39: ");
    told(&folder, "sector never-moved 7").well();
    // A COWD file under FLAT is plain sectors.
    let found =
        "sector 413: stored in extent 5 (cowd-s001.vmdk), file sector 5, byte offset 2560\n";
    assert_eq!(told(&folder, "sector never-moved 413").well().text(), found);
    for words in [
        "map never-moved",
        "map --coverage never-moved",
        "digest never-moved",
    ] {
        told(&folder, words).ended(
            1,
            "anhkhovet: never-moved: extent 1: cowd-s001.vmdk: refused 43: ",
        );
    }
    let verdicts = told(&folder, "check never-moved");
    assert_eq!(verdicts.status, Some(1));
    let text = verdicts.text();
    let told_of = |words: &str| text.lines().filter(|line| line.contains(words)).count();
    assert_eq!(
        told_of(&format!("refused 43: {SENTENCE} ({how})")),
        3,
        "{text}"
    );
    assert_eq!(
        (told_of("not read"), told_of("accepted\n")),
        (0, 0),
        "{text}"
    );
    assert!(
        text.starts_with("never-moved: not accepted, of 6 extents 4 refused\n"),
        "{text}"
    );
}

/// Nobody may read it, and it may be what would be waited for: its file is not opened.
#[test]
fn no_file_of_such_an_extent_is_opened() {
    let folder = folder();
    let line = |name: &str| format!("RW 8 ZERO\nRW 100 VMFSSPARSE \"{name}\"\n");
    fs::create_dir(folder.at("folder")).expect("a folder");
    let made = std::process::Command::new("mkfifo")
        .arg(folder.at("pipe"))
        .status();
    assert!(made.expect("mkfifo").success());
    for name in ["missing", "folder", "pipe", "../old", "/etc/passwd"] {
        disks::descriptor(&folder, "disk", &line(name));
        for words in ["sector disk 8", "map disk", "digest disk"] {
            let words: Vec<&str> = words.split(' ').collect();
            let ran = common::run_soon(folder.path(), &words);
            ran.ended(1, "disk: extent 1: ");
            assert!(ran.err.contains("refused 43: "), "{}", ran.err);
        }
        let ran = common::run_soon(folder.path(), &["check", "disk"]);
        assert_eq!(ran.status, Some(1), "{name}");
    }
    // `describe` says whether a file is there, and opens none.
    disks::descriptor(&folder, "disk", &line("pipe"));
    let ran = common::run_soon(folder.path(), &["describe", "disk"]);
    assert!(
        ran.well().text().contains("not there pipe"),
        "{}",
        ran.text()
    );
    disks::descriptor(&folder, "disk", &line("old"));
    assert!(told(&folder, "describe disk")
        .well()
        .text()
        .contains("there     old"));
}

/// A descriptor leads to its files, and these to what can be read.
#[test]
fn from_the_descriptor_to_a_disk_that_is_read() {
    let folder = folder();
    disks::descriptor(&folder, "disk", "RW 100 VMFSSPARSE \"old\"\n");
    let ran = told(&folder, "move disk -o new");
    ran.ended(1, "those of its extents are old)");
    told(&folder, "move old -o new").well();
    disks::descriptor(&folder, "disk", "RW 100 SPARSE \"new\"\n");
    let text = told(&folder, "check disk").well().text();
    assert!(text.starts_with("disk: accepted, capacity 100 sectors in 1 extent\n"));
}
