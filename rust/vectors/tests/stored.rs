//! What is stored for the program crates is what the plain implementation says.

use std::collections::BTreeSet;
use vectors::stored::{all, differing, root};

/// The places of 8, as they are printed.
const PLACES: [&str; 5] = ["1", "2", "3", "4", "5"];

#[test]
fn stored_files() {
    let root = root();
    let files = all(&root).unwrap();
    let differing: Vec<&str> = differing(&root, &files)
        .iter()
        .map(|file| &file.path[..])
        .collect();
    assert!(
        differing.is_empty(),
        "`vectors --write` would change {differing:?}"
    );
}

/// The input of `cases` stays small enough to be stored.
#[test]
fn small_input() {
    let input = std::fs::read(root().join("crates/cases/stdin")).unwrap();
    assert!(input.len() <= 3_000_000, "{} bytes", input.len());
}

/// The stored surveys have images of each refusal number of the check.
#[test]
fn every_refusal_tallied() {
    let output = std::fs::read_to_string(root().join("crates/cases/stdout")).unwrap();
    let tallies = output
        .lines()
        .filter_map(|line| line.strip_prefix("tally "));
    let words: Vec<Vec<&str>> = tallies.map(|words| words.split(' ').collect()).collect();
    for number in (1..=12).chain([43]) {
        let counted = |words: &Vec<&str>| !["0", "170"].contains(&words[number - 1]);
        assert!(words.iter().any(counted), "no image refused {number}");
    }
}

/// The stored cases have both meanings of an entry of 1: zeros, and grains, tables and redundant tables at sector 1.
#[test]
fn both_meanings_of_1() {
    let output = std::fs::read_to_string(root().join("crates/cases/stdout")).unwrap();
    for source in ["1 0 ", "2 1 ", "3 1 "] {
        let start = format!("lookup 0 0 0 {source}");
        let found = output.lines().any(|line| line.starts_with(&start));
        assert!(found, "no {start}");
    }
    let frames = output
        .lines()
        .filter_map(|line| line.strip_prefix("frame 0 0 "));
    let words: Vec<Vec<&str>> = frames.map(|words| words.split(' ').collect()).collect();
    for table in [["5", "1", "4"], ["6", "1", "4"]] {
        let named = |words: &Vec<&str>| words[1..].chunks(3).any(|area| area == table);
        assert!(words.iter().any(named), "no table {table:?}");
    }
}

/// The stored ways end at each of their steps, and 1 is either on them: zeros, a table's sector, a grain's.
#[test]
fn every_way() {
    let output = std::fs::read_to_string(root().join("crates/cases/stdout")).unwrap();
    let lines = output
        .lines()
        .filter_map(|line| line.strip_prefix("steps 0 0 "));
    let mut ends = BTreeSet::new();
    for line in lines {
        let words: Vec<&str> = line.split(' ').collect();
        let [zeros, _, _, directory, table_at, table, kind] =
            [0, 1, 2, 3, 4, 5, 6].map(|k| words[k]);
        let short = |entry| match entry {
            "0" => 0,
            "1" => 1,
            _ => 2,
        };
        let table = (table_at != "0").then(|| short(table));
        ends.insert((zeros == "1", short(directory), table, kind.to_string()));
    }
    let has = |zeros, directory, table, kind: &str| {
        let end = (zeros, directory, table, kind.to_string());
        assert!(ends.contains(&end), "no {end:?}");
    };
    has(true, 0, None, "0");
    has(false, 0, None, "0");
    has(true, 1, None, "1");
    has(false, 1, Some(0), "0");
    has(true, 2, Some(0), "0");
    has(false, 2, Some(0), "0");
    has(true, 2, Some(1), "1");
    has(false, 2, Some(1), "2");
    has(false, 2, Some(1), "3");
    for zeros in [true, false] {
        has(zeros, 2, Some(2), "2");
        has(zeros, 2, Some(2), "3");
    }
}

/// Each place of 8 that a call can give, and no other: a lookup names the directory and a primary table alone.
#[test]
fn every_place_of_8() {
    let output = std::fs::read_to_string(root().join("crates/cases/stdout")).unwrap();
    let told = |call: &str, place: usize| -> BTreeSet<&str> {
        let start = format!("{call} 8 ");
        let lines = output.lines().filter_map(|line| line.strip_prefix(&start));
        lines
            .filter_map(|line| line.split(' ').nth(place))
            .collect()
    };
    let calls = [
        "check", "check_in", "profile", "frame", "mend", "normal", "collapse",
    ];
    for call in calls {
        assert!(told(call, 0).into_iter().eq(PLACES), "{call}");
    }
    assert!(told("split", 1).into_iter().eq(PLACES));
    assert!(told("steps", 0).into_iter().eq(["2", "4"]));
    for call in ["lookup", "chain"] {
        assert!(told(call, 1).into_iter().eq(["2", "4"]), "{call}");
    }
    let surveys = output
        .lines()
        .filter_map(|line| line.strip_prefix("survey 0 "));
    let mut rows = BTreeSet::new();
    for words in surveys {
        let words: Vec<&str> = words.split(' ').skip(5).collect();
        let refused = words.chunks_exact(6).filter(|row| row[4] == "8");
        rows.extend(refused.map(|row| row[5]));
    }
    assert!(rows.into_iter().eq(PLACES));
}

/// The stored cases reach each refusal that a call can give. 36 needs a longer text: tests/cases/texts has it. So do 3, 4 and 6 of
/// an image in a disk of several files need longer files: tests/cases/splits has them.
#[test]
fn every_refusal() {
    let output = std::fs::read_to_string(root().join("crates/cases/stdout")).unwrap();
    let check: Vec<u64> = (0..=12).chain([43]).collect();
    let moves: Vec<u64> = (0..=12).chain([21, 23, 27, 44]).collect();
    let wanted = [
        ("check", check.clone()),
        ("check_in", check.iter().copied().chain([21]).collect()),
        (
            "profile",
            check.iter().copied().chain([23, 27, 42, 47]).collect(),
        ),
        ("header", (0..=7).chain([43]).collect()),
        ("lookup", (0..=10).chain([20, 43]).collect()),
        ("steps", (0..=10).chain([20, 43]).collect()),
        ("chain", (0..=10).chain([20, 22, 24, 43]).collect()),
        ("frame", (0..=8).chain([21, 43]).collect()),
        ("survey", vec![0, 21, 24]),
        ("mend", (0..=8).chain([21, 40, 43]).collect()),
        (
            "normal",
            check.iter().copied().chain([21, 23, 27]).collect(),
        ),
        (
            "collapse",
            check.iter().copied().chain([21, 22, 23, 27]).collect(),
        ),
        ("to_kdmv", moves.clone()),
        ("to_cowd", moves),
        ("close", (0..=6).chain([21, 41, 43]).collect()),
        ("descriptor", [0, 21].into_iter().chain(30..=35).collect()),
        ("find", vec![0, 20]),
        (
            "split",
            (0..=2)
                .chain(7..=12)
                .chain([5, 20, 24, 38, 39, 43, 45])
                .chain(30..=35)
                .collect(),
        ),
    ];
    for (call, numbers) in wanted {
        for number in numbers {
            let start = format!("{call} {number} ");
            assert!(
                output.lines().any(|line| line.starts_with(&start)),
                "no {start}"
            );
        }
    }
}
