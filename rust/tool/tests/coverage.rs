//! `map --coverage`: its numbers are those of a count of every sector of the disk and of each file.

#[path = "common/chains.rs"]
mod chains;
mod common;
#[path = "common/disks.rs"]
mod disks;
#[path = "common/image.rs"]
mod image;
#[path = "../src/frame/made.rs"]
mod made;

use chains::{accepted, Chain};
use common::{run, Folder};
use image::Image;
use serde_json::Value;
use std::fs;
use std::path::Path;

fn told(folder: &Folder, names: &[&str]) -> Value {
    let words = [&["map", "--coverage", "--json"], names].concat();
    let ran = run(folder.path(), &words);
    assert_eq!(ran.status, Some(0), "{names:?}: {}", ran.err);
    serde_json::from_slice(&ran.out).expect("an object")
}

fn number(object: &Value, key: &str) -> u64 {
    object[key].as_u64().expect("a number")
}

/// The sum of a column.
fn sum(said: &Value, key: &str) -> u64 {
    let rows = said["coverage"].as_array().expect("rows");
    rows.iter().map(|row| number(row, key)).sum()
}

/// Each row adds up to its file's sectors, the disk to its capacity, and what is served is what is stored.
fn adds_up(said: &Value) {
    let parts = [
        "served",
        "packed",
        "hidden",
        "past_capacity",
        "other_areas",
        "no_area",
    ];
    for row in said["coverage"].as_array().expect("rows") {
        let all: u64 = parts.iter().map(|key| number(row, key)).sum();
        assert_eq!(all, number(row, "file_sectors"), "{row}");
        let areas = row["areas"].as_object().expect("areas").keys();
        let areas: u64 = areas.map(|key| number(&row["areas"], key)).sum();
        assert_eq!(areas, number(row, "other_areas"), "{row}");
    }
    let sectors = &said["disk"]["sectors"];
    assert_eq!(sum(said, "served"), number(sectors, "stored"));
    let kinds = ["stored", "packed", "zero", "absent"];
    let all: u64 = kinds.iter().map(|key| number(sectors, key)).sum();
    assert_eq!(all, number(sectors, "all"));
    assert_eq!(sectors["all"], said["capacity"]);
}

/// What the tool says of a chain of files, which is what a count of every sector says.
fn right(folder: &Folder, names: &[&str]) -> Value {
    let said = told(folder, names);
    let bytes = |name: &&str| fs::read(folder.at(name)).expect("an image");
    let images: Vec<Vec<u8>> = names.iter().map(bytes).collect();
    let images: Vec<&[u8]> = images.iter().map(Vec::as_slice).collect();
    let wanted = Chain::of(&images).counted();
    for (key, wanted) in wanted.as_object().expect("members") {
        assert_eq!(&said[key], wanted, "{names:?}: {key}");
    }
    adds_up(&said);
    said
}

/// Chains of one to four layers, open and packed ones beside each other.
#[test]
fn made_chains() {
    let folder = Folder::new();
    let mut met = [0; 6];
    for alike in accepted(0..900) {
        for (seed, image) in &alike {
            fs::write(folder.at(&seed.to_string()), image).expect("written");
        }
        let names: Vec<String> = alike.iter().map(|(seed, _)| seed.to_string()).collect();
        let names: Vec<&str> = names.iter().map(String::as_str).collect();
        let mut left = names.as_slice();
        while !left.is_empty() {
            let layers = (1 + met[0] as usize % 4).min(left.len());
            let said = right(&folder, &left[..layers]);
            left = &left[layers..];
            met[0] += 1;
            let columns = ["served", "packed", "hidden", "past_capacity", "bytes_past"];
            for (count, key) in met[1..].iter_mut().zip(columns) {
                *count += u64::from(sum(&said, key) > 0);
            }
        }
    }
    println!("{met:?}");
    assert!(met[0] > 30 && met.iter().all(|&count| count > 0), "{met:?}");
}

#[test]
fn samples() {
    let names = [
        "tool-base.vmdk",
        "tool-middle.vmdk",
        "tool-top.vmdk",
        "tool-packed.vmdk",
    ];
    let folder = Folder::new().with(&names).with(&["cowd-s001.vmdk"]);
    disks::lab(&folder);
    right(&folder, &["lab.vmdk"]);
    for upper in 1..=names.len() {
        for lower in 0..upper {
            right(&folder, &names[lower..upper]);
        }
    }
    let said = right(&folder, &names[..3]);
    assert_eq!(sum(&said, "hidden"), 256);
}

/// Given twice a file is two layers: the upper one hides all of the lower.
#[test]
fn one_file_twice() {
    let folder = Folder::new().with(&["tool-base.vmdk"]);
    let alone = told(&folder, &["tool-base.vmdk"]);
    let twice = right(&folder, &["tool-base.vmdk", "tool-base.vmdk"]);
    let [lower, upper] = [0, 1].map(|layer| &twice["coverage"][layer]);
    assert_eq!(number(upper, "served"), 256);
    assert_eq!((number(lower, "served"), number(lower, "hidden")), (0, 256));
    assert_eq!(twice["disk"], alone["disk"]);
    let sectors = number(&alone["coverage"][0], "file_sectors");
    assert_eq!(sum(&twice, "file_sectors"), 2 * sectors);
}

/// Capacity ends inside of the last grain, which both layers store; behind it are sectors and bytes of no area.
#[test]
fn past_capacity_and_past_all_areas() {
    let folder = Folder::new();
    for (name, more) in [("lower", 0), ("upper", 10 * 512 + 77)] {
        let image = Image::new(&folder.at(name), 200);
        image.entry(1, image.start);
        image.length(512 * (image.start + image::GRAIN) + more);
    }
    let said = right(&folder, &["lower", "upper"]);
    let [lower, upper] = [0, 1].map(|layer| &said["coverage"][layer]);
    for (row, served, hidden, after, bytes) in [(lower, 0, 72, 0, 0), (upper, 72, 0, 10, 77)] {
        assert_eq!(number(row, "served"), served);
        assert_eq!(number(row, "hidden"), hidden);
        assert_eq!(number(row, "past_capacity"), 56);
        // Header, directory and table take 6 sectors, and grains begin at 128.
        assert_eq!(number(row, "no_area"), 128 - 6 + after);
        assert_eq!(number(row, "bytes_past"), bytes);
    }
}

/// A packed grain takes the sectors of its marker and payload, and none past capacity.
#[test]
fn packed_grains() {
    let folder = Folder::new().with(&["tool-packed.vmdk", "tool-base.vmdk"]);
    let alone = right(&folder, &["tool-packed.vmdk"]);
    assert_eq!(number(&alone["coverage"][0], "packed"), 2);
    assert_eq!(number(&alone["disk"]["sectors"], "packed"), 256);
    // The base stores grain 1, so that only grain 3 is served from the packed image.
    let under = right(&folder, &["tool-packed.vmdk", "tool-base.vmdk"]);
    let row = &under["coverage"][0];
    assert_eq!((number(row, "packed"), number(row, "hidden")), (1, 1));
}

/// The number of each column, by its key.
fn columns(row: &Value) -> impl Iterator<Item = (&String, &Value)> {
    let columns = row.as_object().expect("a row").iter();
    columns.filter(|(key, _)| !["layer", "extent"].contains(&key.as_str()))
}

/// Extent by extent: an image has the numbers that it has alone, plain sectors are served as far as the line has them.
#[test]
fn a_disk_of_several_files() {
    let folder = Folder::new().with(&disks::SAMPLES);
    disks::add(&folder);
    let said = told(&folder, &["all"]);
    adds_up(&said);
    assert_eq!(number(&said, "capacity"), disks::CAPACITY);
    // Its images have two grain sizes.
    assert_eq!(said["disk"]["grains"], Value::Null);
    let images = [
        (0, "tool-base.vmdk"),
        (3, "lab.vmdk"),
        (6, "tool-packed.vmdk"),
    ];
    for (extent, name) in images {
        let alone = right(&folder, &[name]);
        let (row, alone) = (&said["coverage"][extent], &alone["coverage"][0]);
        assert!(columns(row).eq(columns(alone)), "{row} {alone}");
    }
    // The file of plain sectors has seven; ZERO has none.
    for (extent, sectors, file) in [(1, 0, 0), (2, 4, 7), (4, 2, 7), (5, 2, 7)] {
        let row = &said["coverage"][extent];
        assert_eq!(number(row, "served"), sectors);
        assert_eq!(number(row, "file_sectors"), file);
        assert_eq!(number(row, "no_area"), file - sectors);
    }
    let words = ["map", "--coverage", "hurt"];
    run(folder.path(), &words).ill("hurt: extent ");
    run(folder.path(), &["map", "--coverage", "no-access"]).ended(1, "extent 0: refused 39: ");
}

/// The images that the sentences of docs/COVERAGE.md rule out: lookups answer, and two of them name one file sector.
#[test]
fn images_that_measure_a_byte_twice() {
    let checks = Path::new(env!("CARGO_MANIFEST_DIR")).join("../../tests/checks");
    let folder = Folder::new();
    for (name, both) in [("two-grains-on-one", (0, 8)), ("grains-overlap", (7, 8))] {
        let bytes = fs::read(checks.join(name)).expect("a stored input");
        fs::write(folder.at(name), &bytes).expect("written");
        assert_eq!(Chain::of(&[&bytes]).twice(), Some(both), "{name}");
        run(folder.path(), &["map", name]).well();
        let shared = format!("{name}: refused 12: two areas of the file share a sector");
        let checked = run(folder.path(), &["check", name]);
        assert_eq!(
            (checked.status, checked.text()),
            (Some(1), shared.clone() + "\n")
        );
        for words in [
            vec!["map", "--coverage", name],
            vec!["map", "--coverage", name, name],
        ] {
            let ran = run(folder.path(), &words);
            assert_eq!(ran.ended(1, &shared).text(), "");
        }
        let ran = run(folder.path(), &["map", "--json", "--coverage", name]);
        let said: Value = serde_json::from_slice(&ran.out).expect("an object");
        assert_eq!(
            (ran.status, number(&said["refused"], "number")),
            (Some(1), 12)
        );
    }
}
