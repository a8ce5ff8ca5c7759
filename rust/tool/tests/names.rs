//! Names of files and texts from inside images: nothing of them acts on a terminal, and two that differ are told apart.

mod common;

use common::{tool, Folder, Ran};
use serde_json::Value;
use std::collections::HashSet;
use std::ffi::{OsStr, OsString};
use std::fs;
use std::io::Write;
use std::os::unix::ffi::{OsStrExt, OsStringExt};
use std::process::Stdio;

/// Names with a colour, a line end, a bell, DEL, a control of the second set, marks of direction, a space of no width, a byte
/// order mark, a tag; bytes that are no UTF-8, names that look like their escaped form, and a space at the end.
const ODD: [&[u8]; 17] = [
    b"red\x1b[31m",
    b"two\nlines",
    b"bell\x07",
    b"return\roverwritten",
    b"del\x7f",
    b"second\xc2\x9b31m",
    "right\u{202e}kdmv".as_bytes(),
    "isolate\u{2067}d".as_bytes(),
    "no\u{200b}width".as_bytes(),
    "mark\u{feff}".as_bytes(),
    "tag\u{e0041}".as_bytes(),
    b"byte\xff",
    b"byte\xfe",
    b"cut\xe2\x80",
    b"byte\\xff",
    b"byte\\\\xff",
    b"space at the end ",
];

/// Names that are shown as they are.
const PLAIN: [&str; 4] = ["a b'c\"d.vmdk", "größe", "ディスク", "दिस्क"];

fn folder() -> Folder {
    let folder = Folder::new().with(&["tool-base.vmdk", "tool-packed.vmdk"]);
    for name in ODD
        .iter()
        .copied()
        .chain(PLAIN.iter().map(|name| name.as_bytes()))
    {
        let name = OsStr::from_bytes(name);
        fs::copy(folder.at("tool-base.vmdk"), folder.path().join(name)).expect("a copy");
    }
    folder
}

fn run(folder: &Folder, words: &[&[u8]]) -> Ran {
    let words = words.iter().map(|word| OsStr::from_bytes(word));
    let output = tool(folder.path()).args(words).output();
    Ran::of(output.expect("the tool starts"))
}

/// Whether a text has nothing but what is drawn, and line ends.
fn harmless(text: &[u8]) -> bool {
    let text = match std::str::from_utf8(text) {
        Ok(text) => text,
        Err(_) => return false,
    };
    let odd = ['\u{202e}', '\u{2067}', '\u{200b}', '\u{feff}', '\u{e0041}'];
    !text.contains(&odd[..]) && !text.chars().any(|c| c.is_control() && c != '\n')
}

/// The bytes that the form in words stands for.
fn read_back(form: &str) -> Vec<u8> {
    let mut bytes = Vec::new();
    let mut rest = form.as_bytes();
    while let Some((&byte, after)) = rest.split_first() {
        rest = after;
        match (byte, after) {
            (b'\\', [b'\\', ..]) => {
                bytes.push(b'\\');
                rest = &after[1..];
            }
            (b'\\', [b'x', ..]) => {
                let digits = std::str::from_utf8(&after[1..3]).expect("two digits");
                bytes.push(u8::from_str_radix(digits, 16).expect("two digits"));
                rest = &after[3..];
            }
            _ => bytes.push(byte),
        }
    }
    bytes
}

#[test]
fn in_words_a_name_can_be_read_back_and_acts_on_nothing() {
    let folder = folder();
    let mut forms = HashSet::new();
    for name in ODD {
        let ran = run(&folder, &[b"check", name]);
        let told = String::from_utf8(ran.well().out.clone()).expect("UTF-8");
        assert!(harmless(told.as_bytes()), "{told:?}");
        let (form, _) = told.split_once(": accepted").expect("a verdict");
        assert_eq!(read_back(form), name, "{told}");
        forms.insert(form.to_string());
    }
    assert_eq!(forms.len(), ODD.len());
}

#[test]
fn plain_names_are_shown_as_they_are() {
    let folder = folder();
    for name in PLAIN {
        let told = run(&folder, &[b"check", name.as_bytes()]).well().text();
        assert!(told.starts_with(&format!("{name}: accepted")), "{told}");
    }
}

/// The name that an object has under a key.
fn name_of(object: &Value, key: &str) -> Vec<u8> {
    let hex = object.get(format!("{key}_bytes"));
    let text = object[key].as_str().expect("a name");
    match hex {
        None => text.as_bytes().to_vec(),
        Some(hex) => {
            let bytes = bytes_of(hex);
            assert!(std::str::from_utf8(&bytes).is_err());
            assert_eq!(read_back(text), bytes);
            bytes
        }
    }
}

fn bytes_of(hex: &Value) -> Vec<u8> {
    let hex = hex.as_str().expect("digits");
    (0..hex.len())
        .step_by(2)
        .map(|at| u8::from_str_radix(&hex[at..at + 2], 16).expect("two digits"))
        .collect()
}

#[test]
fn in_json_a_name_is_itself_or_its_bytes_stand_beside_it() {
    let folder = folder();
    for name in ODD {
        let object = |words: &[&[u8]]| -> Value {
            let ran = run(&folder, words);
            assert!(harmless(&ran.out), "{}", ran.text());
            serde_json::from_slice(&ran.out).expect("JSON")
        };
        let all = object(&[b"check", b"--json", name]);
        assert_eq!(name_of(&all["files"][0], "file"), name);
        let one = object(&[b"sector", b"--json", name, b"2"]);
        assert_eq!(name_of(&one, "file"), name);
        let refused = object(&[b"sector", b"--json", name, b"9999"]);
        assert_eq!(name_of(&refused["refused"], "file"), name);
        for command in [&b"map"[..], b"digest"] {
            let chain = object(&[command, b"--json", b"tool-base.vmdk", name]);
            let found = match chain.get("files_bytes") {
                Some(bytes) => bytes_of(&bytes[1]),
                None => chain["files"][1].as_str().expect("a name").into(),
            };
            assert_eq!(found, name);
        }
        let out = [b"out-", name].concat();
        let written = object(&[b"normal", b"--json", b"tool-base.vmdk", b"-o", &out]);
        assert_eq!(name_of(&written, "output"), out);
        let out = [b"mended-", name].concat();
        let mended = object(&[b"mend", b"--good=primary", b"--json", name, b"-o", &out]);
        assert_eq!(name_of(&mended, "file"), name);
        assert_eq!(name_of(&mended, "output"), out);
    }
}

/// Nothing of a name comes through as it is, nor as a mark that stands for any byte.
fn nothing_comes_through(folder: &Folder, words: &[&[u8]]) {
    let ran = run(folder, words);
    let told = ran.text() + &ran.err;
    let both = harmless(&ran.out) && harmless(ran.err.as_bytes());
    assert!(both, "{words:?}: {told:?}");
    assert!(!told.contains(char::REPLACEMENT_CHARACTER), "{told}");
    assert!(!told.contains("\nlines"), "{words:?}: {told:?}");
}

/// Every command with every odd name.
#[test]
fn no_command_hands_a_name_on_as_it_is() {
    let folder = folder();
    for name in ODD {
        let sentences: [&[&[u8]]; 10] = [
            &[b"survey", name],
            &[b"sector", name, b"2"],
            &[b"explain", name, b"9999"],
            &[b"map", name, name],
            &[b"digest", b"tool-base.vmdk", b"--list", name],
            &[b"read", b"tool-base.vmdk", b"2", b"-o", name],
            &[b"normal", b"tool-base.vmdk", b"-o", name, b"--force"],
            &[b"mend", name, b"--good", b"primary", b"-o", name],
            &[b"collapse", b"tool-packed.vmdk", name, b"-o", b"none"],
            &[b"describe", name, b"--sector", b"2048"],
        ];
        for words in sentences {
            nothing_comes_through(&folder, words);
        }
    }
}

/// The same where the name is of no file, or is no name.
#[test]
fn no_complaint_hands_a_name_on_as_it_is() {
    let folder = folder();
    for name in ODD {
        let missing = [b"missing-", name].concat();
        let list = [b"--list=", &missing[..]].concat();
        let flag = [b"--flag-", name].concat();
        let sentences: [&[&[u8]]; 15] = [
            &[b"survey", &missing],
            &[b"survey", b"--json", &missing],
            &[b"sector", &missing, b"2"],
            &[b"sector", b"tool-base.vmdk", name],
            &[b"map", &missing],
            &[b"map", b"--json", &missing],
            &[b"check", &missing],
            &[b"check", b"--json", &missing],
            &[b"digest", b"tool-base.vmdk", &list],
            &[b"digest", b"--json", b"tool-base.vmdk", &list],
            &[b"collapse", b"tool-packed.vmdk", name, b"-o", &missing],
            &[b"describe", &missing],
            &[b"describe", name, b"--sector", name],
            &[&flag],
            &[b"check", &flag, name],
        ];
        for words in sentences {
            nothing_comes_through(&folder, words);
        }
    }
}

/// A name as a word of the command line that no list of samples has: all bytes but 0 and the slash.
#[test]
fn every_byte_can_be_read_back() {
    let folder = folder();
    let name: Vec<u8> = (1..=255u8).filter(|&byte| byte != b'/').collect();
    fs::copy(
        folder.at("tool-base.vmdk"),
        folder.path().join(OsString::from_vec(name.clone())),
    )
    .expect("a copy");
    let told = run(&folder, &[b"check", &name]).well().text();
    let (form, _) = told.split_once(": accepted").expect("a verdict");
    assert!(harmless(told.as_bytes()));
    assert_eq!(read_back(form), name);
}

#[test]
fn texts_from_inside_a_descriptor() {
    let folder = folder();
    for name in ODD {
        // A line end parts lines there, and is in no name.
        let name: Vec<u8> = name.iter().copied().filter(|&byte| byte != b'\n').collect();
        let text = [
            b"# Disk DescriptorFile\nversion=1\nCID=1\nparentCID=ffffffff\ncreateType=\"",
            &name[..],
            b"\"\nRW 8 SPARSE \"",
            &name,
            b"\"\n",
        ]
        .concat();
        fs::write(folder.at("text"), text).expect("written");
        let told = run(&folder, &[b"describe", b"text"]).well().text();
        assert!(harmless(told.as_bytes()), "{told:?}");
        let kind = told.lines().nth(4).expect("a line");
        assert_eq!(read_back(&kind["createType: ".len()..]), name);
        let extent = told.lines().nth(6).expect("a line");
        assert_eq!(read_back(&extent[74..]), name, "{extent}");

        let ran = run(&folder, &[b"describe", b"--json", b"text"]);
        assert!(harmless(&ran.well().out), "{}", ran.text());
        let object: Value = serde_json::from_slice(&ran.out).expect("JSON");
        assert_eq!(name_of(&object, "create_type"), name);
        assert_eq!(name_of(&object["extents"][0], "name"), name);
    }
}

/// What is in a list is not told as it is.
#[test]
fn lines_of_a_list() {
    let folder = folder();
    for name in ODD {
        let mut child = tool(folder.path())
            .args(["digest", "tool-base.vmdk", "--list", "-"])
            .stdin(Stdio::piped())
            .stdout(Stdio::piped())
            .stderr(Stdio::piped())
            .spawn()
            .expect("the tool starts");
        let mut input = child.stdin.take().expect("a pipe");
        input.write_all(name).expect("written");
        drop(input);
        let ran = Ran::of(child.wait_with_output().expect("it ends"));
        assert_eq!(ran.status, Some(3));
        assert!(harmless(&ran.out) && ran.err.is_empty(), "{}", ran.text());
    }
}
