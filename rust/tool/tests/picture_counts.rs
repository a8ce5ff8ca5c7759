//! `picture`: every sector of each file and of the disk is in a part, once, and there are never too many parts.

#[path = "common/chains.rs"]
mod chains;
mod common;
#[path = "common/image.rs"]
mod image;
#[path = "../src/frame/made.rs"]
mod made;

use anhkhovet::{Group, Source, SECTOR};
use chains::accepted;
use common::{run, Folder};
use image::{Image, GRAIN};
use serde_json::{json, Map, Value};
use std::collections::BTreeSet;
use std::fs;

/// No picture has more parts.
const MOST: u64 = 2000;

fn drawn(folder: &Folder, names: &[&str]) -> Value {
    let words = [&["picture", "--json", "--force"], names, &["-o", "out.svg"]].concat();
    let ran = run(folder.path(), &words);
    assert_eq!(ran.status, Some(0), "{names:?}: {}", ran.err);
    let said: Value = serde_json::from_slice(&ran.out).expect("an object");
    let markup = fs::read_to_string(folder.at("out.svg")).expect("a picture");
    let parts = markup.matches("<g class=\"part\"><title>").count() as u64;
    assert_eq!(said["parts"].as_u64(), Some(parts));
    assert!(parts <= MOST, "{parts} parts");
    said
}

fn number(object: &Value, key: &str) -> u64 {
    object[key].as_u64().unwrap_or(0)
}

/// Parts stand in a row from 0 on, up to so many sectors, and so do their kinds add up.
fn whole(strip: &Value, sectors: u64) {
    let mut at = 0;
    for part in strip["parts"].as_array().expect("parts") {
        assert_eq!(number(part, "first"), at);
        at += number(part, "sectors");
    }
    assert_eq!(at, sectors);
    let kinds = strip["sectors"].as_object().expect("kinds");
    assert_eq!(
        kinds.values().filter_map(Value::as_u64).sum::<u64>(),
        sectors
    );
}

fn whole_picture(said: &Value) {
    whole(&said["disk"], number(said, "capacity"));
    for layer in said["layers"].as_array().expect("layers") {
        whole(&layer["file"], number(layer, "file_sectors"));
        if said["layers"].as_array().map_or(0, Vec::len) > 1 {
            whole(&layer["disk"], number(said, "capacity"));
        }
    }
}

fn group(group: Group) -> &'static str {
    match group {
        Group::Header => "header",
        Group::Descriptor => "descriptor",
        Group::Directory => "directory",
        Group::RedundantDirectory => "redundant_directory",
        Group::PrimaryTable => "primary_table",
        Group::RedundantTable => "redundant_table",
        Group::Footer => "footer",
        Group::LastSector => "last_sector",
    }
}

/// The sectors of an image by what takes them, each looked at by itself.
fn counted(image: &[u8]) -> Value {
    let disk = anhkhovet::header(image).expect("a header").disk;
    let mut marks = vec![Vec::new(); image.len() / SECTOR as usize];
    let mut mark = |first: u64, sectors: u64, word: &'static str| {
        for at in first..first + sectors {
            marks[at as usize].push(word);
        }
    };
    for area in anhkhovet::frame(image).expect("a frame") {
        mark(area.first, area.sectors, group(area.group));
    }
    for sector in (0..disk.capacity).step_by(disk.grain_size as usize) {
        match anhkhovet::lookup(image, sector) {
            Ok(Source::Stored { sector: at }) => mark(at, disk.grain_size, "stored"),
            Ok(Source::Packed {
                sector: at, size, ..
            }) => mark(at, (12 + size + 511) / 512, "packed"),
            _ => {}
        }
    }
    let mut counts = Map::new();
    for mark in &marks {
        let word = match mark.as_slice() {
            [] => "no_area",
            [word] => *word,
            _ => "shared",
        };
        let count = counts.get(word).and_then(Value::as_u64).unwrap_or(0);
        counts.insert(word.to_string(), json!(count + 1));
    }
    Value::Object(counts)
}

/// Sectors of the disk by kind, as the library answers for each of them.
fn kinds(image: &[u8]) -> Value {
    let disk = anhkhovet::header(image).expect("a header").disk;
    let mut counts = json!({});
    for sector in 0..disk.capacity {
        let word = match anhkhovet::lookup(image, sector) {
            Ok(Source::Stored { .. }) => "stored",
            Ok(Source::Packed { .. }) => "packed",
            Ok(Source::Zero) => "zero",
            Ok(Source::Absent) => "absent",
            Err(_) => "refused",
        };
        counts[word] = json!(number(&counts, word) + 1);
    }
    counts
}

#[test]
fn made_images() {
    let folder = Folder::new();
    let mut met = BTreeSet::new();
    for seed in 0..400 {
        let image = made::image(seed);
        fs::write(folder.at("image"), &image).expect("written");
        let refused = anhkhovet::check(&image).err();
        let number = refused.map_or(0, |why| why.number);
        if anhkhovet::frame(&image).is_err() {
            let ran = run(folder.path(), &["picture", "image", "-o", "none.svg"]);
            ran.ended(1, &format!("image: refused {number}"));
            continue;
        }
        met.insert(number);
        let said = drawn(&folder, &["image"]);
        whole_picture(&said);
        assert_eq!(
            said["layers"][0]["file"]["sectors"],
            counted(&image),
            "{seed}"
        );
        assert_eq!(said["disk"]["sectors"], kinds(&image), "{seed}");
        assert_eq!(
            said["layers"][0]["refused"]["number"].as_u64().unwrap_or(0),
            number
        );
    }
    assert_eq!(met, [0, 9, 10, 11, 12].into(), "{met:?}");
}

/// Of chains the sums are those of `map --coverage`.
#[test]
fn made_chains() {
    let folder = Folder::new();
    let mut chains = 0;
    for alike in accepted(0..200) {
        for (seed, image) in &alike {
            fs::write(folder.at(&seed.to_string()), image).expect("written");
        }
        let names: Vec<String> = alike.iter().map(|(seed, _)| seed.to_string()).collect();
        let names: Vec<&str> = names.iter().map(String::as_str).collect();
        for chain in names.chunks(3).take(12) {
            let words = [&["map", "--coverage", "--json"], chain].concat();
            let ran = run(folder.path(), &words);
            let counts: Value = serde_json::from_slice(&ran.out).expect("an object");
            let said = drawn(&folder, chain);
            whole_picture(&said);
            for kind in ["stored", "packed", "zero", "absent"] {
                let wanted = number(&counts["disk"]["sectors"], kind);
                assert_eq!(number(&said["disk"]["sectors"], kind), wanted, "{chain:?}");
            }
            let rows = counts["coverage"].as_array().expect("rows");
            for (row, layer) in rows.iter().zip(said["layers"].as_array().expect("layers")) {
                let file = &layer["file"];
                assert_eq!(
                    number(&file["sectors"], "no_area"),
                    number(row, "no_area"),
                    "{chain:?}"
                );
                // The sectors of a hidden last grain past capacity are counted apart there.
                let hidden = number(file, "hidden");
                let most = number(row, "hidden") + number(row, "past_capacity");
                assert!(
                    (number(row, "hidden")..=most).contains(&hidden),
                    "{chain:?}"
                );
            }
            chains += usize::from(chain.len() > 1);
        }
    }
    assert!(chains > 5, "{chains}");
}

/// A disk of 1 TiB, of whose grains every 99th of the first half is stored, from the last to the first, and its base.
#[test]
fn the_largest_disk() {
    let folder = Folder::in_memory();
    let capacity = 1 << 31;
    let image = Image::new(&folder.at("large"), capacity);
    let stored: Vec<u64> = (0..capacity / GRAIN / 2).step_by(99).collect();
    for (place, grain) in (0..).zip(stored.iter().rev()) {
        image.entry(*grain, image.start + GRAIN * place);
    }
    let sectors = image.start + GRAIN * stored.len() as u64;
    image.length(512 * sectors);
    Image::new(&folder.at("base"), capacity);
    let said = drawn(&folder, &["large"]);
    whole_picture(&said);
    let held = GRAIN * stored.len() as u64;
    assert_eq!(number(&said["disk"]["sectors"], "stored"), held);
    assert_eq!(
        number(&said["layers"][0]["file"]["sectors"], "stored"),
        held
    );
    assert!(said["parts"].as_u64() > Some(500), "{}", said["parts"]);
    // The header and the directory are parts of their own.
    let first = &said["layers"][0]["file"]["parts"][0];
    assert_eq!(
        (&first["kind"], &first["together"]),
        (&json!("header"), &json!(false))
    );
    let said = drawn(&folder, &["base", "large"]);
    whole_picture(&said);
    assert_eq!(number(&said["disk"]["sectors"], "stored"), held);
}

/// As many layers as a chain can have, in each of which a grain of its own and one that the next layer hides.
#[test]
fn the_longest_chain() {
    let folder = Folder::new();
    let names: Vec<String> = (0..16).map(|layer| format!("layer-{layer}")).collect();
    for (layer, name) in (0..).zip(&names) {
        let image = Image::new(&folder.at(name), 4096 * GRAIN);
        for (place, grain) in [layer, 4000, 100 + 7 * layer, 2000 + layer]
            .into_iter()
            .enumerate()
        {
            image.entry(grain, image.start + GRAIN * place as u64);
        }
        image.length(512 * (image.start + 4 * GRAIN));
    }
    let names: Vec<&str> = names.iter().map(String::as_str).collect();
    let said = drawn(&folder, &names);
    whole_picture(&said);
    for layer in said["layers"].as_array().expect("layers") {
        let top = number(layer, "layer") == 15;
        assert_eq!(
            number(&layer["file"], "hidden"),
            if top { 0 } else { GRAIN }
        );
    }
    let seventeen = [&names[..], &["layer-0"], &["-o", "none.svg"]].concat();
    run(folder.path(), &[&["picture"], &seventeen[..]].concat()).ended(1, "refused 24: ");
}
