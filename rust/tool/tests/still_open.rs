//! Images whose disk was still open when they were copied: every answer is what it is of the sound image, and that is told
//! beside it; `collapse` and `normal` refuse them.

mod common;
#[path = "common/dirty.rs"]
mod dirty;
#[path = "common/disks.rs"]
mod disks;

use common::{run, Folder, Ran};
use dirty::{changed, footer, KDMV, NOTE, REMARK, SAMPLES, STREAM};
use serde_json::{json, Value};
use std::ffi::OsString;
use std::fs;
use std::os::unix::ffi::OsStringExt;

fn told(folder: &Folder, words: &str) -> Ran {
    run(folder.path(), &words.split(' ').collect::<Vec<_>>())
}

fn object(ran: &Ran) -> Value {
    serde_json::from_slice(&ran.out).expect("one object")
}

/// What every image has an answer for.
const ANSWERED: [&str; 5] = [
    "sector disk 5",
    "read disk 2",
    "map disk",
    "digest --grain disk",
    "digest --grain disk --list list --complete",
];

/// Samples, each with bytes by which it was still open.
fn cases(folder: &Folder) -> Vec<(&'static str, Vec<(usize, u8)>)> {
    let mut cases = Vec::new();
    for byte in [1, 2, 255] {
        cases.push(("tool-base.vmdk", vec![(KDMV, byte)]));
        cases.push((STREAM, vec![(KDMV, byte), (footer(folder), byte)]));
    }
    cases
}

/// Two folders with one image, `disk`, and a list of its digests: sound in the first, still open in the second.
fn sound_and_open(samples: &Folder, sample: &str, bytes: &[(usize, u8)]) -> [Folder; 2] {
    let folders = [Folder::new(), Folder::new()];
    for folder in &folders {
        fs::copy(samples.at(sample), folder.at("disk")).expect("a copy");
        let list = told(folder, "digest --grain disk").well().out.clone();
        fs::write(folder.at("list"), list).expect("written");
    }
    changed(&folders[1], "disk", "disk", bytes);
    folders
}

/// What is told of the image that was still open is what is told of the sound one, with the note before it.
fn same_with_note(folders: &[Folder; 2], words: &str) {
    let [sound, open] = [0, 1].map(|at: usize| told(&folders[at], words));
    assert_eq!(open.text(), sound.text(), "{words}");
    assert_eq!(open.status, sound.status, "{words}");
    let note = format!("anhkhovet: disk: {NOTE}\n");
    assert_eq!(open.err, note + &sound.err, "{words}");
}

/// The same in JSON, where two members tell it.
fn same_but_for_members(folders: &[Folder; 2], words: &str) {
    let words = format!("--json {words}");
    let [mut sound, mut open] = [0, 1].map(|at: usize| object(&told(&folders[at], &words)));
    let members = open.as_object_mut().expect("an object");
    assert_eq!(members.remove("still_open"), Some(json!(true)), "{words}");
    let files = members.remove("open_files");
    assert!(words.contains("describe") || files == Some(json!(["disk"])));
    let members = sound.as_object_mut().expect("an object");
    assert_eq!(members.remove("still_open"), Some(json!(false)), "{words}");
    assert_eq!(open, sound, "{words}");
}

#[test]
fn answers_are_those_of_the_sound_image() {
    let samples = Folder::new().with(&SAMPLES);
    for (sample, bytes) in cases(&samples) {
        let folders = sound_and_open(&samples, sample, &bytes);
        for words in ANSWERED {
            same_with_note(&folders, words);
            same_but_for_members(&folders, words);
        }
        same_with_note(&folders, "sector disk 9999999");
        // The stream's descriptor is refused.
        if sample != STREAM {
            same_but_for_members(&folders, "describe disk");
        }
        same_with_note(&folders, "describe disk");
    }
}

#[test]
fn check_and_survey_accept_it_and_say_it() {
    let folder = Folder::new().with(&SAMPLES);
    for (sample, bytes) in cases(&folder) {
        changed(&folder, sample, "disk", &bytes);
        for command in ["check", "survey"] {
            let words = format!("{command} disk {sample}");
            let text = told(&folder, &words).well().text();
            let open: Vec<&str> = text.lines().filter(|line| line.ends_with(REMARK)).collect();
            assert_eq!(open.len(), 1, "{text}");
            assert!(open[0].starts_with("disk") && open[0].contains("accepted"));

            let said = object(told(&folder, &format!("--json {words}")).well());
            let [open, sound] = [&said["files"][0], &said["files"][1]];
            assert_eq!(open["still_open"], true, "{said}");
            assert_eq!(sound["still_open"], false, "{said}");
            assert_eq!(open["accepted"], sound["accepted"], "{said}");
        }
    }
}

/// The bytes beside the number, and one of the two sectors that have it alone.
#[test]
fn no_other_byte_counts() {
    let folder = Folder::new().with(&SAMPLES);
    for (sample, at) in [("tool-base.vmdk", KDMV - 1), ("tool-base.vmdk", 79)] {
        changed(&folder, sample, "disk", &[(at, 1)]);
        let said = object(told(&folder, "--json check disk").well());
        assert_eq!(said["files"][0]["still_open"], false, "{sample} {at}");
        told(&folder, "sector disk 0").well();
    }
    for at in [KDMV, footer(&folder)] {
        changed(&folder, STREAM, "disk", &[(at, 1)]);
        let ran = told(&folder, "--json check disk");
        assert_eq!(ran.status, Some(1));
        let said = object(&ran)["files"][0].take();
        assert_eq!(said["refused"]["number"], 7);
        assert_eq!(said.get("still_open"), None, "a header that is refused");
        let ran = told(&folder, "sector disk 0");
        assert!(!ran.ended(1, "disk: refused 7").err.contains(NOTE));
    }
}

/// A copy of a running machine's disk is often refused: then too the ground is told.
#[test]
fn a_refusal_stands_beside_it() {
    let folder = Folder::new().with(&SAMPLES);
    dirty::add(&folder);
    for command in ["check", "survey"] {
        let words = format!("{command} open-cut");
        let ran = told(&folder, &words);
        let line = format!("refused 9 at grain 1: the grain runs past the end of the file{REMARK}");
        assert!(ran.text().contains(&line), "{}", ran.text());
        let said = object(&told(&folder, &format!("--json {words}")));
        assert_eq!(said["files"][0]["still_open"], true);
        assert_eq!(said["files"][0]["refused"]["number"], 9);
    }
    let ran = told(&folder, "map open-cut");
    let note = format!("anhkhovet: open-cut: {NOTE}\nanhkhovet: open-cut: refused 9 at grain 1");
    ran.ended(1, &note);
}

#[test]
fn each_open_layer_is_named() {
    let folder = Folder::new().with(&SAMPLES).with(&["tool-top.vmdk"]);
    dirty::add(&folder);
    for (layers, open) in [
        ("tool-base.vmdk tool-middle.vmdk", vec![]),
        ("open-base tool-middle.vmdk", vec!["open-base"]),
        ("tool-base.vmdk open-middle", vec!["open-middle"]),
        (
            "open-255 open-middle tool-top.vmdk",
            vec!["open-255", "open-middle"],
        ),
    ] {
        let notes: Vec<String> = open
            .iter()
            .map(|name| format!("anhkhovet: {name}: {NOTE}\n"))
            .collect();
        for words in [
            format!("sector {layers} 2"),
            format!("map {layers}"),
            format!("digest --grain {layers}"),
        ] {
            let ran = told(&folder, &words);
            assert_eq!((ran.status, ran.err), (Some(0), notes.concat()), "{words}");
            let said = object(&told(&folder, &format!("--json {words}")));
            assert_eq!(said["still_open"], !open.is_empty(), "{words}");
            let files = Some(json!(open)).filter(|_| !open.is_empty());
            assert_eq!(said.get("open_files"), files.as_ref(), "{words}");
        }
    }
}

#[test]
fn names_that_are_no_text() {
    let folder = Folder::new().with(&SAMPLES);
    dirty::add(&folder);
    let name = OsString::from_vec(b"d\xff".to_vec());
    fs::copy(folder.at("open-base"), folder.path().join(&name)).expect("a copy");
    let mut command = common::tool(folder.path());
    let ran = command.args(["map", "--json"]).arg(name).output();
    let ran = Ran::of(ran.expect("the tool starts"));
    assert_eq!(ran.err, format!("anhkhovet: d\\xff: {NOTE}\n"));
    let said = object(&ran);
    assert_eq!(said["open_files"], json!(["d\\xff"]));
    assert_eq!(said["open_files_bytes"], json!(["64ff"]));
}

/// 27 comes after what the checks say, 23 and 22.
#[test]
fn collapse_and_normal_refuse_it() {
    let folder = Folder::new().with(&SAMPLES).with(&["tool-packed.vmdk"]);
    dirty::add(&folder);
    changed(&folder, "open-base", "small", &[(13, 7)]);
    changed(&folder, "tool-packed.vmdk", "packed", &[(KDMV, 1)]);
    fs::write(folder.at("kept"), "kept").expect("written");
    let names = folder.names();
    let open = format!("refused 27: {NOTE}");
    for (words, wanted) in [
        ("normal open-base", format!("open-base: {open}\n")),
        ("normal open-255", format!("open-255: {open}\n")),
        ("normal open-middle", format!("open-middle: {open}\n")),
        ("normal open-cut", "open-cut: refused 9 ".to_string()),
        ("normal packed", "packed: refused 23".to_string()),
        ("normal open-cowd", "open-cowd: refused 43".to_string()),
        (
            "collapse open-base tool-middle.vmdk",
            format!("open-base: {open}\n"),
        ),
        (
            "collapse tool-base.vmdk open-middle",
            format!("open-middle: {open}\n"),
        ),
        (
            "collapse open-base tool-middle.vmdk open-255 open-middle",
            format!("open-base: {open} (still open too: open-255, open-middle)\n"),
        ),
        (
            "collapse tool-base.vmdk tool-middle.vmdk open-middle",
            format!("open-middle: {open}\n"),
        ),
        ("collapse open-base small", "refused 22".to_string()),
        (
            "collapse open-base packed",
            "packed: refused 23".to_string(),
        ),
        (
            "collapse open-base open-cut",
            "open-cut: refused 9".to_string(),
        ),
    ] {
        told(&folder, &format!("{words} -o out")).ended(1, &format!("anhkhovet: {wanted}"));
        told(&folder, &format!("{words} -o kept --force")).ended(1, &wanted);
        assert_eq!(folder.names(), names, "{words}");
        let kept = fs::read(folder.at("kept")).expect("a file");
        assert_eq!(kept, b"kept", "{words}");
    }
}

#[test]
fn what_is_written_is_not_open() {
    let folder = Folder::new().with(&SAMPLES);
    told(&folder, "normal tool-middle.vmdk -o normal").well();
    told(&folder, "collapse tool-base.vmdk tool-middle.vmdk -o whole").well();
    for name in ["normal", "whole"] {
        assert_eq!(fs::read(folder.at(name)).expect("an image")[KDMV], 0);
        let said = object(told(&folder, &format!("--json check {name}")).well());
        assert_eq!(said["files"][0]["still_open"], false);
    }
}
