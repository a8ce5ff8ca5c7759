//! The way is the lookup's, its bytes are the file's, and its sums are right: in the samples, and in images with every kind of damage.

use super::end::Below;
use super::walk::Walk;
use crate::frame::made;
use crate::names::hex;
use anhkhovet::{lookup, Source};
use serde_json::Value;
use std::collections::BTreeSet;
use std::fs;
use std::path::Path;

/// Disks of more sectors are looked at here and there.
const MANY: u64 = 10_000;

/// So many sectors of an image that is made.
const SOME: u64 = 40;

fn number(word: &str) -> Option<i128> {
    match word.strip_prefix("0x") {
        Some(digits) => i128::from_str_radix(digits, 16).ok(),
        None => word.parse().ok(),
    }
}

/// What a sum comes to: numbers with a sign between each two.
fn total(sum: &[&str]) -> i128 {
    let value = |word: &str| number(word).expect("a number");
    let (mut all, mut part) = (0, value(sum[0]));
    for pair in sum[1..].chunks(2) {
        let next = value(pair[1]);
        match pair[0] {
            "x" => part *= next,
            "/" => part /= next,
            "mod" => part %= next,
            sign => {
                all += part;
                part = if sign == "-" { -next } else { next };
            }
        }
    }
    all + part
}

/// The number that bytes are, as a hex viewer shows them.
fn counted(bytes: &[&str]) -> Option<i128> {
    let values = bytes.iter().map(|byte| i128::from_str_radix(byte, 16).ok());
    values
        .rev()
        .try_fold(0, |sum, value| Some(256 * sum + value?))
}

/// Holds each `=` of a sentence to what stands before it, a sum or bytes. How many there are.
fn reckon(words: &str) -> usize {
    let tokens = words.split(' ');
    let tokens: Vec<&str> = tokens
        .map(|word| word.trim_end_matches([',', ';', ':']))
        .collect();
    let equal = (0..tokens.len()).filter(|at| tokens[*at] == "=");
    let mut count = 0;
    for at in equal {
        let signs = ["+", "-", "x", "/", "mod"];
        let mut first = at - 1;
        while first >= 2 && signs.contains(&tokens[first - 1]) {
            first -= 2;
        }
        let stand = tokens[..at].iter().rposition(|word| *word == "stand");
        let value = match (first < at - 1, stand) {
            (true, _) => Some(total(&tokens[first..at])),
            (false, Some(stand)) => counted(&tokens[stand + 1..at]),
            (false, None) => None,
        };
        assert!(
            value.is_some() && value == number(tokens[at + 1]),
            "{words}"
        );
        count += 1;
    }
    count
}

/// The kind that follows from the entries, by the table of docs/FORMAT.md.
fn follows(way: &Value, packed: bool) -> &'static str {
    let entry = match (way["table"].is_null(), way["directory"].is_null()) {
        (false, _) => &way["table"]["entry"],
        (true, false) => &way["directory"]["entry"],
        (true, true) => return "end",
    };
    let last = way["table"].is_null();
    match (
        entry.as_u64().expect("an entry"),
        way["one_is_zero"] == true,
    ) {
        (0, _) => "absent",
        (1, true) => "zero",
        _ if last => "end",
        _ if packed => "packed",
        _ => "stored",
    }
}

/// Holds what is said of an entry to what it means.
fn said(way: &Value, step: &Value) {
    let (part, key) = match step["name"].as_str() {
        Some("directory entry") => ("table", "directory"),
        Some("table entry") => ("grain", "table"),
        _ => return,
    };
    let entry = way[key]["entry"].as_u64().expect("an entry");
    let says = match (entry, way["one_is_zero"] == true) {
        (0, _) => "absent".to_string(),
        (1, true) => "zeros".to_string(),
        _ => format!("the {part} begins at file sector {entry}"),
    };
    let words = step["words"].as_str().expect("words");
    assert!(words.ends_with(&says), "{words}");
}

/// Looks at one sector, and tells how its way ends.
fn end_of(image: &[u8], sector: u64) -> String {
    let walk = match Walk::of(image, sector, Below::Unknown) {
        Some(walk) => walk,
        None => {
            let number = lookup(image, sector).expect_err("a refusal").number;
            assert!(!(8..=10).contains(&number), "{number}");
            return number.to_string();
        }
    };
    assert_eq!(walk.end, lookup(image, sector), "{sector}");
    let way = walk.object();
    let steps = way["steps"].as_array().expect("a list");
    let mut sums = 0;
    for step in steps {
        sums += reckon(step["words"].as_str().expect("words"));
        said(&way, step);
        for stand in step["stand"].as_array().expect("a list") {
            let bytes = stand["bytes"].as_str().expect("digits");
            let at = stand["offset"].as_u64().expect("a place") as usize;
            assert_eq!(bytes, hex(&image[at..at + bytes.len() / 2]), "{step}");
        }
    }
    assert!(sums >= 3, "{way}");
    let last = steps.last().expect("a step");
    let named = last["name"].as_str().expect("a name");
    match walk.end {
        Ok(source) => {
            let packed = matches!(source, Source::Packed { .. });
            assert_eq!(named, follows(&way, packed), "{way}");
            named.to_string()
        }
        Err(refusal) => {
            let wanted = if refusal.number == 10 {
                "marker"
            } else {
                "end"
            };
            assert_eq!(named, wanted, "{way}");
            refusal.number.to_string()
        }
    }
}

/// All sectors of a disk and the one past its end; of a long one those at both ends, and some between.
fn sectors(capacity: u64) -> Vec<u64> {
    let near = |sector: &u64| {
        capacity <= MANY || *sector < 1000 || *sector >= capacity - 1000 || sector % 1009 == 0
    };
    (0..=capacity).filter(near).collect()
}

#[test]
fn every_sector_of_the_samples() {
    let folder = Path::new(env!("CARGO_MANIFEST_DIR")).join("../../samples");
    let mut ends = BTreeSet::new();
    let mut images = 0;
    for file in fs::read_dir(folder).expect("samples") {
        let image = fs::read(file.expect("a file").path()).expect("bytes");
        if let Ok(header) = anhkhovet::header(&image) {
            images += 1;
            let sectors = sectors(header.disk.capacity);
            ends.extend(sectors.into_iter().map(|sector| end_of(&image, sector)));
        }
    }
    assert!(images >= 15, "{images}");
    let ends: Vec<String> = ends.into_iter().collect();
    assert_eq!(ends, ["20", "absent", "packed", "stored", "zero"]);
}

/// Some sectors of a made image, and the first of the grain that its check names.
fn some(image: &[u8]) -> Vec<u64> {
    let disk = match anhkhovet::header(image) {
        Ok(header) => header.disk,
        Err(_) => return vec![0],
    };
    let step = (disk.capacity / SOME).max(1) as usize;
    let named = match anhkhovet::check(image) {
        Err(refusal) if matches!(refusal.number, 9 | 10) => refusal.place * disk.grain_size,
        _ => disk.capacity - 1,
    };
    (0..disk.capacity).step_by(step).chain([named]).collect()
}

#[test]
fn images_with_every_kind_of_damage() {
    let mut ends = BTreeSet::new();
    for seed in 0..400 {
        let image = made::image(seed);
        let sectors = some(&image).into_iter();
        ends.extend(sectors.map(|sector| end_of(&image, sector)));
    }
    for end in ["8", "9", "10", "absent", "packed", "stored", "zero"] {
        assert!(ends.contains(end), "{end} is not among {ends:?}");
    }
}

#[test]
#[should_panic]
fn a_wrong_sum_is_seen() {
    reckon("at byte 512 x 27 + 4 x 1 = 13829 stand 80 00 00 00 = 128");
}

#[test]
#[should_panic]
fn a_wrong_number_is_seen() {
    reckon("at byte 512 x 27 + 4 x 1 = 13828 stand 80 01 00 00 = 128");
}
