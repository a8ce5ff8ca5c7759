//! What `explain` tells, held to `sector` and to the files.
#![allow(dead_code)]

use crate::common::{run, Folder, Ran};
use serde_json::Value;
use std::fs;

pub fn ran(folder: &Folder, words: &str) -> Ran {
    run(folder.path(), &words.split(' ').collect::<Vec<_>>())
}

pub fn object(ran: &Ran) -> Value {
    serde_json::from_slice(&ran.out).expect("one object")
}

pub fn list(value: &Value) -> &[Value] {
    value.as_array().expect("a list")
}

/// The names of a way's steps.
pub fn names(way: &Value) -> Vec<&str> {
    let steps = list(&way["steps"]).iter();
    steps.filter_map(|step| step["name"].as_str()).collect()
}

/// Each byte that is told of a file stands there, and is told in words too.
pub fn stands(folder: &Folder, told: &Value) {
    for way in list(&told["ways"]) {
        let image = fs::read(folder.at(way["file"].as_str().expect("a name"))).expect("a file");
        for step in list(&way["steps"]) {
            for stand in list(&step["stand"]) {
                let at = stand["offset"].as_u64().expect("a place") as usize;
                let digits = stand["bytes"].as_str().expect("digits");
                let bytes = &image[at..at + digits.len() / 2];
                let spaced: Vec<String> = bytes.iter().map(|byte| format!("{byte:02x}")).collect();
                assert_eq!(digits, spaced.concat(), "{step}");
                let words = step["words"].as_str().expect("words");
                assert!(words.contains(&spaced.join(" ")), "{words}");
                assert!(words.contains(&at.to_string()), "{words}");
            }
        }
    }
}

/// What `explain` tells of a sector that `sector` has an answer for: the same, and the way to it.
pub fn agrees(folder: &Folder, files: &str, sector: u64) -> Value {
    let (words, found) = (
        ran(folder, &format!("explain {files} {sector}")),
        ran(folder, &format!("sector {files} {sector}")),
    );
    assert_eq!((words.status, &words.err), (Some(0), &found.err), "{files}");
    let last = words.text().lines().last().map(str::to_string);
    assert_eq!(last.unwrap_or_default() + "\n", found.text(), "{files}");

    let mut told = object(&ran(folder, &format!("explain --json {files} {sector}")));
    stands(folder, &told);
    let whole = told.clone();
    let members = told.as_object_mut().expect("an object");
    members.retain(|key, _| !["ways", "in_extent"].contains(&key.as_str()));
    let found = object(&ran(folder, &format!("sector --json {files} {sector}")));
    assert_eq!(told, found, "{files} {sector}");
    // Every step is told in words, in order.
    let mut rest = words.text();
    for way in list(&whole["ways"]) {
        for step in list(&way["steps"]) {
            let text = |key: &str| step[key].as_str().expect("a text").to_string();
            let line = format!("\n{}: {}\n", text("name"), text("words"));
            let at = rest
                .find(&line)
                .unwrap_or_else(|| panic!("no {line} in {rest}"));
            rest = rest[at + line.len() - 1..].to_string();
        }
    }
    whole
}
