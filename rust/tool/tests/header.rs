//! `header`: fields as they stand in the file, and the rule that each meets or breaks.

mod common;

use common::{run, sample, samples, Folder};
use serde_json::Value;
use std::fs;

fn told(folder: &Folder, name: &str) -> (Option<i32>, Value) {
    let ran = run(folder.path(), &["header", "--json", name]);
    let object = serde_json::from_slice(&ran.out).expect("an object");
    (ran.status, object)
}

fn rows(told: &Value) -> Vec<Value> {
    let lists = ["fields", "footer"].map(|key| told[key].as_array().expect("a list").clone());
    lists.concat()
}

/// The names of the fields that break a rule, with its number.
fn marked(told: &Value) -> Vec<(String, u64)> {
    let mut marked = Vec::new();
    for row in rows(told) {
        for rule in row["rules"].as_array().expect("a list") {
            if rule["met"] == false {
                let name = row["name"].as_str().expect("a name").to_string();
                marked.push((name, rule["number"].as_u64().expect("a number")));
            }
        }
    }
    marked
}

/// What is changed of a sample: bytes put at a place, counted from the end where it is below 0.
struct Damage {
    of: &'static str,
    at: i64,
    bytes: &'static [u8],
    /// As many bytes more or fewer.
    longer: i64,
    number: u64,
    marked: &'static [&'static str],
}

const ONES: &[u8] = &[0xff; 8];

const fn damage(
    of: &'static str,
    at: i64,
    bytes: &'static [u8],
    number: u64,
    marked: &'static [&'static str],
) -> Damage {
    Damage {
        of,
        at,
        bytes,
        longer: 0,
        number,
        marked,
    }
}

const BASE: &str = "tool-base.vmdk";
const STREAM: &str = "vmdkstream.vmdk";

const DAMAGES: [Damage; 25] = [
    Damage {
        longer: 511 - 196_608,
        ..damage(BASE, 0, b"K", 1, &["length"])
    },
    damage(BASE, 3, b"W", 2, &["magic"]),
    damage(BASE, 4, b"\0", 3, &["version"]),
    damage(BASE, 4, b"\x04", 3, &["version"]),
    damage(BASE, 73, b"\r", 4, &["newline bytes"]),
    damage(BASE, 76, b"\0", 4, &["newline bytes"]),
    damage(BASE, 8, b"\x0b", 5, &["flags"]),
    damage(BASE, 77, b"\x02", 5, &["compression"]),
    damage(BASE, 77, b"\x01", 5, &["flags", "compression"]),
    damage(BASE, 10, b"\x01", 5, &["flags", "compression"]),
    damage(BASE, 8, b"\x07", 5, &["version", "flags"]),
    damage(
        BASE,
        48,
        b"\0",
        5,
        &["flags", "redundant directory's sector"],
    ),
    damage(BASE, 56, ONES, 5, &["flags", "directory's sector"]),
    damage(
        "tool-packed.vmdk",
        10,
        b"\x02",
        5,
        &["flags", "flags", "compression"],
    ),
    damage(BASE, 12, &[0; 8], 6, &["capacity"]),
    damage(BASE, 12, b"\x01\0\0\x80", 6, &["capacity"]),
    damage(BASE, 20, b"\x04", 6, &["grain size"]),
    damage(BASE, 20, b"\x0c", 6, &["grain size"]),
    damage(BASE, 20, b"\0\x10", 6, &["grain size"]),
    damage(BASE, 44, b"\x01", 6, &["entries per table"]),
    Damage {
        longer: 1,
        ..damage(STREAM, 0, b"K", 7, &["length"])
    },
    damage(STREAM, -1024, b"L", 7, &["footer"]),
    damage(STREAM, -1024 + 511, b"\x01", 7, &["footer"]),
    damage(STREAM, -1, b"\x01", 7, &["last sector"]),
    damage(STREAM, -1024 + 56, ONES, 7, &["footer's directory sector"]),
];

#[test]
fn the_field_that_is_marked_is_the_one_damaged() {
    let folder = Folder::new();
    for (case, damage) in DAMAGES.iter().enumerate() {
        let mut bytes = fs::read(sample(damage.of)).expect("a sample");
        let length = bytes.len();
        let at = if damage.at < 0 {
            length as i64 + damage.at
        } else {
            damage.at
        } as usize;
        bytes[at..at + damage.bytes.len()].copy_from_slice(damage.bytes);
        bytes.resize((length as i64 + damage.longer) as usize, 0);
        fs::write(folder.at("image"), bytes).expect("written");
        let (status, told) = told(&folder, "image");
        assert_eq!(
            (status, &told["refused"]["number"]),
            (Some(1), &damage.number.into()),
            "case {case}"
        );
        let expected: Vec<_> = damage
            .marked
            .iter()
            .map(|name| (name.to_string(), damage.number))
            .collect();
        assert_eq!(marked(&told), expected, "case {case}");
        let words = run(folder.path(), &["header", "image"]);
        assert_eq!(
            words.text().matches("  BREAKS ").count(),
            expected.len(),
            "{}",
            words.text()
        );
        assert!(words
            .text()
            .starts_with(&format!("image: refused {}: ", damage.number)));
    }
}

/// No field of an accepted header is marked, and every number is told in its bytes.
#[test]
fn accepted_headers() {
    let mut accepted = 0;
    for file in fs::read_dir(samples()).expect("samples") {
        let path = file.expect("a file").path();
        let bytes = fs::read(&path).expect("a sample");
        if !bytes.starts_with(b"KDMV") {
            continue;
        }
        let folder = Folder::new();
        fs::write(folder.at("image"), &bytes).expect("written");
        let (status, told) = told(&folder, "image");
        assert_eq!(status, Some(0), "{path:?}");
        assert!(
            marked(&told).is_empty() && told["broken"].as_array().expect("a list").is_empty(),
            "{path:?}"
        );
        for row in rows(&told).iter().filter(|row| !row["offset"].is_null()) {
            let (at, size) = (
                row["offset"].as_u64().expect("a place") as usize,
                row["size"].as_u64().expect("a size") as usize,
            );
            let digits: String = bytes[at..at + size]
                .iter()
                .map(|byte| format!("{byte:02x}"))
                .collect();
            assert_eq!(row["bytes"], digits.as_str(), "{path:?}: {}", row["name"]);
        }
        accepted += 1;
    }
    assert!(accepted >= 12, "{accepted}");
}

#[test]
fn several_rules_at_once() {
    let folder = Folder::new();
    let mut bytes = fs::read(sample(BASE)).expect("a sample");
    for at in [4, 12, 20, 73] {
        bytes[at] = 9;
    }
    fs::write(folder.at("image"), bytes).expect("written");
    let ran = run(folder.path(), &["header", "image"]);
    assert_eq!(ran.status, Some(1));
    assert!(
        ran.text().starts_with("image: refused 3: "),
        "{}",
        ran.text()
    );
    assert!(
        ran.text()
            .ends_with("also broken, and told once this is mended: 4, 6\n"),
        "{}",
        ran.text()
    );
    // Grains of 9 sectors cannot be counted.
    assert!(!ran.text().contains("grains: "));
}

#[test]
fn what_is_no_kdmv_image() {
    let folder = Folder::new().with(&["cowd-s001.vmdk", "two-gb-sparse.vmdk"]);
    let cowd = run(folder.path(), &["header", "cowd-s001.vmdk"]);
    assert_eq!(cowd.status, Some(1));
    assert!(
        cowd.text().starts_with("cowd-s001.vmdk: refused 43: ")
            && cowd
                .text()
                .contains("no command but `anhkhovet move` takes it")
    );
    let text = run(folder.path(), &["header", "two-gb-sparse.vmdk"]);
    assert_eq!(text.status, Some(1));
    assert!(text.text().contains("refused 2: ") && text.text().contains("it is a descriptor"));
    for length in [0, 3] {
        fs::write(folder.at("short"), &b"KDMV"[..length]).expect("written");
        let (status, told) = told(&folder, "short");
        assert_eq!(
            (status, marked(&told)),
            (Some(1), vec![("length".to_string(), 1)])
        );
    }
    run(folder.path(), &["header", "-"]).ended(2, "standard input");
    run(folder.path(), &["header", "missing"]).ended(4, "cannot be opened");
}

/// Of a header that the file's end cuts, the fields that are there are shown and not judged.
#[test]
fn a_cut_header() {
    let folder = Folder::new();
    let bytes = fs::read(sample(BASE)).expect("a sample");
    fs::write(folder.at("image"), &bytes[..30]).expect("written");
    let (_, told) = told(&folder, "image");
    let names: Vec<Value> = rows(&told).iter().map(|row| row["name"].clone()).collect();
    assert_eq!(
        names,
        [
            "length",
            "magic",
            "version",
            "flags",
            "capacity",
            "grain size"
        ]
    );
    assert_eq!(marked(&told), [("length".to_string(), 1)]);
}
