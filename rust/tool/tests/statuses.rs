//! Exit statuses: scripts can tell apart what went wrong, and no stream that is closed or full makes the tool end otherwise.

mod common;

use common::{emulated, run, tool, Folder, Ran, TOOL};
use std::fs::{self, File};
use std::os::unix::io::FromRawFd;
use std::path::Path;
use std::process::{Command, Stdio};

const FILES: [&str; 4] = [
    "tool-base.vmdk",
    "tool-middle.vmdk",
    "two-gb-sparse.vmdk",
    "vmdkstream.vmdk",
];

/// The samples, of which one is a descriptor without its extent's file, one that was still open, a list that holds and one that
/// does not.
fn folder() -> Folder {
    let folder = Folder::new().with(&FILES);
    let digests = run(folder.path(), &["digest", "tool-base.vmdk"]);
    fs::write(folder.at("holds"), &digests.well().out).expect("written");
    let other = digests.text().replacen("0 32", "0 33", 1);
    fs::write(folder.at("differs"), other).expect("written");
    let mut open = fs::read(folder.at(FILES[0])).expect("a sample");
    open[72] = 1;
    run(
        folder.path(),
        &["normal", "tool-base.vmdk", "-o", "published"],
    )
    .well();
    fs::write(folder.at("open"), open).expect("written");
    folder
}

fn status(folder: &Folder, words: &str) -> Option<i32> {
    let words: Vec<&str> = words.split(' ').collect();
    run(folder.path(), &words).status
}

#[test]
fn each_status_has_its_meaning() {
    let folder = folder();
    for (words, wanted) in [
        ("check tool-base.vmdk", 0),
        ("digest tool-base.vmdk --list holds", 0),
        ("survey two-gb-sparse.vmdk", 0),
        ("profile published", 0),
        ("check open", 0),
        ("map open tool-middle.vmdk", 0),
        ("map --coverage open tool-middle.vmdk", 0),
        ("digest open --list holds", 0),
        ("mend --good primary tool-base.vmdk", 0),
        ("mend --good redundant open", 0),
        ("move tool-base.vmdk -o moved", 0),
        ("close vmdkstream.vmdk -o closed", 0),
        ("check holds", 1),
        ("profile published tool-base.vmdk", 1),
        ("profile open", 1),
        ("map holds", 1),
        ("map --coverage holds", 1),
        ("map --coverage tool-base.vmdk two-gb-sparse.vmdk", 1),
        ("map tool-base.vmdk two-gb-sparse.vmdk", 1),
        ("sector tool-base.vmdk 2048", 1),
        ("collapse tool-base.vmdk two-gb-sparse.vmdk -o out", 1),
        ("describe holds", 1),
        ("normal open -o out", 1),
        ("mend --good primary holds", 1),
        ("mend --good primary two-gb-sparse.vmdk -o out", 1),
        ("collapse tool-middle.vmdk open -o out", 1),
        ("move open -o out", 1),
        ("move tool-middle.vmdk -o out", 1),
        ("close tool-base.vmdk -o out", 1),
        ("close holds -o out", 1),
        ("check", 2),
        ("survey", 2),
        ("profile", 2),
        ("survey -", 2),
        ("sector tool-base.vmdk two", 2),
        ("check --verbose tool-base.vmdk", 2),
        ("check --coverage tool-base.vmdk", 2),
        ("map --coverage", 2),
        ("digest tool-base.vmdk --complete", 2),
        ("mend tool-base.vmdk", 2),
        ("mend --good both tool-base.vmdk", 2),
        ("mend --good primary tool-base.vmdk tool-middle.vmdk", 2),
        ("mend --good primary tool-base.vmdk --force", 2),
        ("mend --good primary tool-base.vmdk -o -", 2),
        ("mend --good primary -", 2),
        ("move tool-base.vmdk", 2),
        ("move tool-base.vmdk open -o out", 2),
        ("close vmdkstream.vmdk", 2),
        ("close vmdkstream.vmdk open -o out", 2),
        ("close vmdkstream.vmdk -o -", 2),
        ("digest tool-base.vmdk --list differs", 3),
        ("digest tool-base.vmdk --list two-gb-sparse.vmdk", 3),
        ("check missing", 4),
        ("survey missing tool-base.vmdk", 4),
        ("map missing", 4),
        ("map .", 4),
        ("check two-gb-sparse.vmdk", 4),
        ("map two-gb-sparse.vmdk", 4),
        ("map --coverage tool-base.vmdk missing", 4),
        ("map --coverage two-gb-sparse.vmdk", 4),
        ("digest tool-base.vmdk --list missing", 4),
        ("normal tool-base.vmdk -o holds", 4),
        ("normal tool-base.vmdk -o missing/out", 4),
        ("mend --good primary missing", 4),
        ("move missing -o out", 4),
        ("move tool-base.vmdk -o holds", 4),
        ("close missing -o out", 4),
        ("close vmdkstream.vmdk -o holds", 4),
        ("mend --good primary tool-base.vmdk -o holds", 4),
    ] {
        assert_eq!(status(&folder, words), Some(wanted), "{words}");
    }
}

#[test]
fn of_several_files_the_greatest_status_counts() {
    let folder = folder();
    for (words, wanted) in [
        ("check tool-base.vmdk tool-middle.vmdk", 0),
        ("check tool-base.vmdk holds tool-middle.vmdk", 1),
        ("check missing holds tool-base.vmdk", 4),
        ("check tool-base.vmdk holds missing", 4),
        ("check tool-base.vmdk holds two-gb-sparse.vmdk", 4),
    ] {
        assert_eq!(status(&folder, words), Some(wanted), "{words}");
        let json = format!("--json {words}");
        assert_eq!(status(&folder, &json), Some(wanted), "{json}");
    }
}

#[test]
fn check_has_a_line_for_every_file_in_order() {
    let folder = folder();
    let words = ["check", "missing", FILES[0], ".", "holds", FILES[1]];
    let ran = run(folder.path(), &words);
    assert_eq!((ran.status, ran.err.as_str()), (Some(4), ""));
    let text = ran.text();
    let starts: Vec<&str> = text
        .lines()
        .map(|line| line.split(": ").next().unwrap_or_default())
        .collect();
    assert_eq!(starts, words[1..], "{text}");
    let accepted = "accepted, capacity 2048 sectors, grain size 128";
    let lines: Vec<&str> = text.lines().collect();
    assert!(lines[1].ends_with(accepted) && lines[4].ends_with(accepted));
    assert!(lines[0].contains("cannot be opened") && lines[3].contains("refused 2:"));
}

#[test]
fn help_tells_the_statuses() {
    let folder = folder();
    let wanted = "  0  yes\n  1  refused by the rules of the format\n  2  wrong use\n  3  a list that does not hold\n  4  a file that cannot be read or written, or that changed\n";
    for words in ["--help", "check --help", "digest --help", "mend --help"] {
        let words: Vec<&str> = words.split(' ').collect();
        let help = run(folder.path(), &words).well().text();
        assert!(help.contains(wanted), "{help}");
    }
}

/// Every command that tells something on standard output.
const TELLING: [&str; 17] = [
    "check tool-base.vmdk",
    "check --json tool-base.vmdk",
    "survey tool-base.vmdk",
    "survey --json tool-base.vmdk",
    "sector tool-base.vmdk 2",
    "read tool-base.vmdk 2",
    "map tool-base.vmdk",
    "map --json tool-base.vmdk",
    "digest tool-base.vmdk",
    "digest --json tool-base.vmdk",
    "digest tool-base.vmdk --list differs",
    "digest --json tool-base.vmdk --list differs",
    "describe tool-base.vmdk",
    "mend --good primary tool-base.vmdk",
    "mend --good primary --json tool-base.vmdk",
    "--help",
    "--version",
];

/// Runs the tool by a shell that turns its streams elsewhere.
fn turned(folder: &Path, words: &str, streams: &str) -> Ran {
    let runner = std::env::var("ANHKHOVET_RUNNER").unwrap_or_default();
    let output = Command::new("sh")
        .arg("-c")
        .arg(format!("exec {runner} '{TOOL}' {words} {streams}"))
        .current_dir(folder)
        .stdin(Stdio::null())
        .output();
    Ran::of(output.expect("a shell"))
}

/// What a shell may do to a stream. An emulator opens files of its own in place of closed streams.
fn endings(stream: u8) -> Vec<String> {
    let mut all = vec![format!("{stream}>/dev/full")];
    if emulated() {
        println!("NOT RUN: closed streams, since an emulator takes their place");
    } else {
        all.push(format!("{stream}>&-"));
        all.push(format!("{stream}</dev/null"));
    }
    all
}

#[test]
fn a_standard_output_that_is_closed_or_full_is_status_4() {
    let folder = folder();
    for words in TELLING {
        for ending in endings(1) {
            turned(folder.path(), words, &ending).ill("anhkhovet: standard output: ");
        }
    }
}

#[test]
fn a_standard_error_that_is_closed_or_full_changes_no_status() {
    let folder = folder();
    for words in [
        "check missing",
        "survey missing",
        "map missing",
        "map --json missing",
        "map two-gb-sparse.vmdk",
        "frobnicate",
        "digest tool-base.vmdk --list differs",
        "sector tool-base.vmdk 2",
        "sector open 2",
        "describe open",
        "normal open -o out",
        "mend --good primary open",
        "normal missing -o out",
    ] {
        let plain = run(folder.path(), &words.split(' ').collect::<Vec<_>>());
        for ending in endings(2) {
            let ran = turned(folder.path(), words, &ending);
            assert_eq!(ran.status, plain.status, "{words} {ending}");
            assert_eq!(ran.text(), plain.text(), "{words} {ending}");
            let both = turned(folder.path(), words, &format!("{ending} >/dev/full"));
            let told = !plain.out.is_empty() && plain.status < Some(4);
            let wanted = if told { Some(4) } else { plain.status };
            assert_eq!(both.status, wanted, "{words} {ending} and a full output");
        }
    }
}

#[test]
fn all_streams_closed() {
    if emulated() {
        println!("NOT RUN: closed streams, since an emulator takes their place");
        return;
    }
    let folder = folder();
    let closed = "<&- >&- 2>&-";
    for words in TELLING {
        assert_eq!(
            turned(folder.path(), words, closed).status,
            Some(4),
            "{words}"
        );
    }
    let words = "read tool-base.vmdk 2 -o out";
    assert_eq!(turned(folder.path(), words, closed).status, Some(0));
    assert_eq!(fs::read(folder.at("out")).expect("an output"), [b'b'; 512]);
}

/// A pipe that nobody reads ends the tool by the signal that is for it, and with no word.
#[test]
fn nobody_reads() {
    let folder = folder();
    for words in TELLING {
        let mut ends = [0; 2];
        // SAFETY: a plain call with room for two numbers, which are open files then, each in one hand.
        let (read, write) = unsafe {
            assert_eq!(libc::pipe2(ends.as_mut_ptr(), libc::O_CLOEXEC), 0);
            (File::from_raw_fd(ends[0]), File::from_raw_fd(ends[1]))
        };
        drop(read);
        let output = tool(folder.path())
            .args(words.split(' '))
            .stdout(write)
            .output();
        let ran = Ran::of(output.expect("the tool starts"));
        assert_eq!((ran.status, ran.err.as_str()), (None, ""), "{words}");
    }
}
