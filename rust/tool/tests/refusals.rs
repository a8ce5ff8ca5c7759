//! `refusals`: one source for what is told of each number. docs/REFUSALS.md is written from it (with ANHKHOVET_WRITE set), and it
//! is held to the library's definitions, to the stored answers of every call and to the tool's transcripts.

mod common;
#[path = "common/page.rs"]
mod page;

use common::{run, Folder};
use serde_json::Value;
use std::collections::{BTreeMap, BTreeSet};
use std::fs;
use std::path::{Path, PathBuf};

type Numbers = BTreeSet<u64>;

fn root() -> PathBuf {
    Path::new(env!("CARGO_MANIFEST_DIR")).join("../..")
}

fn read(path: &str) -> String {
    fs::read_to_string(root().join(path)).expect(path)
}

/// All files of a folder with an ending, one after the other.
fn read_all(folder: &str, ending: &str) -> String {
    let files = fs::read_dir(root().join(folder)).expect(folder);
    let paths = files.map(|file| file.expect("a file").path());
    let text = |path: PathBuf| fs::read_to_string(path).expect("a text");
    paths
        .filter(|path| path.to_string_lossy().ends_with(ending))
        .map(text)
        .collect()
}

fn told() -> Value {
    let ran = run(Folder::new().path(), &["refusals", "--json"]);
    serde_json::from_slice(&ran.well().out).expect("an object")
}

fn rows(told: &Value) -> &Vec<Value> {
    told["refusals"].as_array().expect("a list")
}

fn number(row: &Value) -> u64 {
    row["number"].as_u64().expect("a number")
}

/// The numbers of the rows that name someone as a giver.
fn given(told: &Value, by: &str, giver: &str) -> Numbers {
    let names = |row: &&Value| {
        row[by]
            .as_array()
            .expect("a list")
            .iter()
            .any(|name| name == giver)
    };
    rows(told).iter().filter(names).map(number).collect()
}

#[test]
fn the_page_is_what_the_command_tells() {
    let page = page::page(&told());
    let path = root().join("docs/REFUSALS.md");
    if std::env::var_os("ANHKHOVET_WRITE").is_some() {
        fs::write(path, page).expect("written");
    } else {
        assert_eq!(page, fs::read_to_string(path).expect("the page"));
    }
}

/// Numbers that stand right behind one of these words.
fn behind(text: &str, words: &[&str]) -> Numbers {
    let tokens: Vec<&str> = text
        .split(|letter: char| !letter.is_alphanumeric())
        .filter(|token| !token.is_empty())
        .collect();
    let pairs = tokens.windows(2).filter(|pair| words.contains(&pair[0]));
    pairs
        .filter_map(|pair| pair[1].parse().ok())
        .filter(|number| *number > 0)
        .collect()
}

/// Numbers at the end of lines that begin with one of these words.
fn cases(text: &str, words: &[&str]) -> Numbers {
    text.lines()
        .filter(|line| words.iter().any(|word| line.starts_with(word)))
        .filter_map(|line| line.rsplit(' ').next()?.parse().ok())
        .collect()
}

/// What the definitions of images, disks and texts and the small program say.
#[test]
fn every_number_has_its_row() {
    let images = read("crates/format/specs/Answers.antt");
    let mut defined = cases(&images, &["number "]);
    assert!(defined.len() >= 24, "{defined:?}");
    defined.extend(behind(&read("crates/disk/specs/Split.antt"), &["unsplit"]));
    let texts = read_all("crates/descriptor/specs", ".antt");
    defined.extend(cases(&texts, &["line_number ", "text_number "]));
    defined.extend(behind(&texts, &["refusal", "number"]));
    defined.extend(behind(
        &read_all("crates/vmdk_check/src", ".rt"),
        &["refused"],
    ));
    let told = told();
    let listed: Vec<u64> = rows(&told).iter().map(number).collect();
    assert_eq!(listed, defined.into_iter().collect::<Vec<_>>());
}

/// What lent words hold before a call.
const UNTOUCHED: &str = "170";

/// The number of each stored answer of a call, by the call's name.
fn answered() -> BTreeMap<String, Numbers> {
    let lines = read("crates/cases/stdout") + &read_all("tests/cases", ".lines");
    let mut answered: BTreeMap<String, Numbers> = BTreeMap::new();
    for line in lines.lines() {
        let words: Vec<&str> = line.split_whitespace().collect();
        let number = match words.get(1).map(|word| word.parse()) {
            Some(Ok(number)) => number,
            _ => continue,
        };
        // These two answer with bytes and words, and a tally belongs to a survey.
        if matches!(words[0], "read" | "record" | "tally") {
            continue;
        }
        answered
            .entry(words[0].to_string())
            .or_default()
            .insert(number);
        if words[0] == "survey" && number == 0 {
            // Rows past the last image keep what they held.
            let rows = words[7..].chunks_exact(6).filter(|row| row[4] != UNTOUCHED);
            let refused = rows.filter_map(|row| row[4].parse::<u64>().ok());
            let of_rows = answered.entry("survey's rows".to_string());
            of_rows.or_default().extend(refused);
        }
    }
    for numbers in answered.values_mut() {
        numbers.remove(&0);
    }
    answered
}

#[test]
fn each_call_gives_what_its_stored_answers_have() {
    let told = told();
    let answered = answered();
    assert!(answered.len() >= 17, "{:?}", answered.keys());
    for (call, numbers) in &answered {
        assert_eq!(&given(&told, "calls", call), numbers, "{call}");
    }
    for order in told["orders"].as_array().expect("a list") {
        let call = order["call"].as_str().expect("a name");
        assert!(
            answered.contains_key(call) || call == "vmdk_check",
            "no answer of {call} is stored"
        );
    }
}

/// Commands as the tool's help lists them.
fn commands() -> Vec<String> {
    let help = run(Folder::new().path(), &["--help"]).text();
    let lines = help
        .lines()
        .skip_while(|line| !line.starts_with("Commands:"))
        .skip(1);
    let names = lines
        .take_while(|line| !line.is_empty())
        .filter_map(|line| line.split_whitespace().next());
    names
        .map(str::to_string)
        .filter(|name| !["help", "refusals"].contains(&name.as_str()))
        .collect()
}

#[test]
fn each_command_is_there() {
    let told = told();
    let listed = rows(&told)
        .iter()
        .flat_map(|row| row["commands"].as_array().expect("a list"));
    let listed: BTreeSet<&str> = listed.filter_map(Value::as_str).collect();
    let commands = commands();
    let commands: BTreeSet<&str> = commands.iter().map(String::as_str).collect();
    let unlike: Vec<_> = commands.symmetric_difference(&listed).collect();
    assert!(
        unlike.is_empty(),
        "not in src/refusals/givers.rs, or there alone: {unlike:?}"
    );
}

/// The refusals that transcripts show are among those of their command. `mend` also tells what entries would be refused for.
#[test]
fn each_command_gives_what_its_transcripts_show() {
    let told = told();
    let mut shown = 0;
    let mut command = String::new();
    for line in read_all("rust/tool/tests/transcripts", ".txt").lines() {
        if let Some(words) = line.strip_prefix("$ ") {
            command = words
                .split(' ')
                .find(|word| !word.starts_with('-'))
                .unwrap_or_default()
                .to_string();
        }
        let refused = line
            .split("refused ")
            .nth(1)
            .and_then(|rest| rest.split([' ', ':']).next()?.parse().ok());
        if let (Some(number), false) = (refused, command == "mend" && !line.starts_with("! ")) {
            let numbers = given(&told, "commands", &command);
            assert!(numbers.contains(&number), "{command}: {line}");
            shown += 1;
        }
    }
    assert!(shown > 100, "{shown}");
}

#[test]
fn each_row_says_all() {
    let told = told();
    for row in rows(&told) {
        let number = number(row);
        assert_ne!(
            row["sentence"], "a rule of the format is broken",
            "{number} has no sentence"
        );
        for part in ["rule", "place", "cause", "advice"] {
            let text = row[part].as_str().expect("a text");
            assert!(
                text.ends_with('.') && !text.contains("  "),
                "{number}: {part}"
            );
        }
        assert!(
            !row["calls"].as_array().expect("a list").is_empty(),
            "{number}"
        );
    }
}

#[test]
fn one_number_or_all() {
    let folder = Folder::new();
    let all = run(folder.path(), &["refusals"]).well().text();
    assert_eq!(all.lines().count(), rows(&told()).len() + 1);
    let one = run(folder.path(), &["refusals", "9"]).well().text();
    assert!(
        one.starts_with("refused 9: the grain runs past the end of the file\n"),
        "{one}"
    );
    for word in ["place ", "commands ", "try "] {
        assert!(one.lines().any(|line| line.starts_with(word)), "{one}");
    }
    assert!(one.lines().all(|line| line.chars().count() <= 100), "{one}");
    run(folder.path(), &["refusals", "13"]).ended(2, "no refusal has that number");
    run(folder.path(), &["refusals", "x"]).ended(2, "no refusal has that number");
}
