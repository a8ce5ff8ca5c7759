//! Disks of several files: every sector of theirs, against the same bytes put together by hand and against one image.

mod common;
#[path = "common/disks.rs"]
mod disks;
#[path = "common/image.rs"]
mod image;

use common::{run, run_soon, sample, samples, Folder};
use disks::{descriptor, CAPACITY, EXTENTS, SAMPLES};
use image::{Image, GRAIN};
use serde_json::Value;
use std::ffi::OsString;
use std::fs;
use std::os::unix::ffi::OsStringExt;
use std::process::Command;

/// What a command prints.
fn told(folder: &Folder, words: &str) -> String {
    let words: Vec<&str> = words.split(' ').collect();
    run(folder.path(), &words).well().text()
}

fn all_types() -> Folder {
    let folder = Folder::new().with(&SAMPLES);
    disks::add(&folder);
    folder
}

/// The lines of an image's own digest, as they stand in a disk that has it from `first` on.
fn moved(digest: &str, first: u64) -> Vec<String> {
    let line = |line: &str| {
        let (sector, rest) = line.split_once(' ').expect("a line");
        let sector: u64 = sector.parse().expect("a number");
        format!("{} {rest}", first + sector)
    };
    digest.lines().map(line).collect()
}

#[test]
fn all_types_are_digested_as_their_files_are() {
    let folder = all_types();
    let zeros = "RW 8 ZERO\n";
    descriptor(&folder, "zeros", zeros);
    let plain = fs::read(folder.at("plain")).expect("a file");
    fs::write(folder.at("four"), &plain[512..5 * 512]).expect("written");
    fs::write(folder.at("last-two"), &plain[5 * 512..]).expect("written");
    descriptor(&folder, "flat-four", "RW 4 FLAT \"four\" 0\n");
    descriptor(&folder, "flat-last", "RW 2 FLAT \"last-two\" 0\n");
    descriptor(&folder, "flat-first", "RW 2 FLAT \"plain\" 0\n");
    let parts = [
        "tool-base.vmdk",
        "zeros",
        "flat-four",
        "lab.vmdk",
        "flat-last",
        "flat-first",
        "tool-packed.vmdk",
    ];
    let mut wanted = Vec::new();
    let mut first = 0;
    for (part, sectors) in parts.iter().zip(EXTENTS) {
        wanted.extend(moved(&told(&folder, &format!("digest {part}")), first));
        first += sectors;
    }
    assert_eq!(first, CAPACITY);
    let digest = told(&folder, "digest all");
    assert_eq!(digest.lines().collect::<Vec<_>>(), wanted);
    fs::write(folder.at("list"), &digest).expect("written");
    let holds = told(&folder, "digest all --list list --complete");
    assert!(
        holds.contains("none of the disk's 4212 sectors is left out"),
        "{holds}"
    );
}

/// The sample's chunks that qemu-img found to be not all zero are as long as its grains, and so are their digests.
#[test]
fn a_disk_of_two_extents_is_digested_as_qemu_img_read_it() {
    let words = ["digest", "--grain", "two-gb-sparse-data.vmdk"];
    let digests = run(&samples(), &words).well().text();
    let (_, zeros) = digests
        .split_once('\n')
        .and_then(|(first, _)| first.split_once(' '))
        .expect("an absent grain");
    let stored: Vec<&str> = digests
        .lines()
        .filter(|line| !line.ends_with(zeros))
        .collect();
    let chunks = fs::read_to_string(sample("two-gb-sparse-data.vmdk.raw.sha256"));
    let line = |line: &str| {
        let words: Vec<&str> = line.split(' ').collect();
        let byte: u64 = words[0].parse().expect("a place");
        format!("{} {}", byte / 512, words[2])
    };
    let chunks = chunks.expect("digests");
    let wanted: Vec<String> = chunks.lines().skip(1).map(line).collect();
    assert_eq!(stored, wanted);
}

/// What `map` says of a sector, as `sector --json` has it but for the file.
fn mapped(runs: &Value, sector: u64) -> Value {
    let all = runs["runs"].as_array().expect("runs");
    let number = |run: &Value, key: &str| run[key].as_u64();
    let held = |run: &&Value| number(run, "first") <= Some(sector);
    let mut run = all.iter().rev().find(held).expect("a run").clone();
    let inside = sector - number(&run, "first").expect("a first sector");
    run["sector"] = sector.into();
    match (run["kind"].as_str(), number(&run, "file_sector")) {
        (Some("stored"), Some(at)) => {
            run["file_sector"] = (at + inside).into();
            run["byte_offset"] = (512 * (at + inside)).into();
        }
        (Some("packed"), _) => run["offset"] = inside.into(),
        _ => {}
    }
    let run = run.as_object_mut().expect("an object");
    run.retain(|key, _| key != "first" && key != "sectors");
    Value::Object(run.clone())
}

/// `sector` judges the extent anew for each sector, `map` once.
#[test]
fn map_and_sector_agree() {
    let folder = all_types();
    let runs = serde_json::from_str(&told(&folder, "map --json all")).expect("JSON");
    let edges = [2047, 2048, 2055, 2056, 2059, 2060, 2159, 2160, 2163, 2164];
    for sector in (0..CAPACITY).step_by(61).chain(edges) {
        let one = told(&folder, &format!("sector --json all {sector}"));
        let mut one: Value = serde_json::from_str(&one).expect("JSON");
        let members = one.as_object_mut().expect("an object");
        members.retain(|key, _| key != "file" && key != "still_open");
        assert_eq!(one, mapped(&runs, sector), "{sector}");
    }
}

#[test]
fn bytes_come_from_the_extents_own_file() {
    let folder = all_types();
    let read = |sector: u64| {
        let words = ["read", "all", &sector.to_string()];
        run(folder.path(), &words).well().out.clone()
    };
    assert_eq!(read(2), [b'b'; 512]);
    assert_eq!(read(2050), [0; 512]);
    assert_eq!(read(2056), [b'b'; 512]);
    assert_eq!(read(2059), [b'e'; 512]);
    assert_eq!(read(2161), [b'g'; 512]);
    assert_eq!(read(2162), [b'a'; 512]);
    let packed = run(folder.path(), &["read", "all", "2294"]);
    let image = fs::read(folder.at("tool-packed.vmdk")).expect("a sample");
    assert_eq!(packed.out, image[128 * 512 + 12..][..85]);
    assert!(packed.err.contains("sector 2294 is packed"));
}

/// The same content in four extents of grains that are stored, zero and absent, and in one image.
fn cut_and_whole(folder: &Folder) {
    let (grains, extents) = (24, 4);
    let whole = Image::new(&folder.at("whole"), GRAIN * grains * extents);
    let mut lines = String::new();
    for extent in 0..extents {
        let name = format!("part-{extent}");
        let part = Image::new(&folder.at(&name), GRAIN * grains);
        lines += &format!("RW {} SPARSE \"{name}\"\n", GRAIN * grains);
        for grain in (0..grains).filter(|grain| (grain + extent) % 3 != 0) {
            let number = grains * extent + grain;
            if number % 5 == 1 {
                part.entry(grain, 1);
                whole.entry(number, 1);
                continue;
            }
            let bytes = vec![number as u8; 512 * GRAIN as usize];
            for (image, grain) in [(&part, grain), (&whole, number)] {
                let at = image.start + GRAIN * grain;
                image.entry(grain, at);
                image.put(512 * at, &bytes);
            }
        }
    }
    descriptor(folder, "cut", &lines);
}

#[test]
fn one_image_and_the_same_in_four_extents_are_digested_alike() {
    let folder = Folder::new();
    cut_and_whole(&folder);
    for more in ["", " --grain"] {
        let digest = told(&folder, &format!("digest whole{more}"));
        assert_eq!(told(&folder, &format!("digest cut{more}")), digest);
        fs::write(folder.at("list"), &digest).expect("written");
        let compare = |disk| {
            told(
                &folder,
                &format!("digest {disk}{more} --list list --complete"),
            )
        };
        assert_eq!(compare("cut"), compare("whole"));
        let json = |disk| -> Value {
            let text = told(&folder, &format!("digest --json {disk}{more}"));
            serde_json::from_str(&text).expect("JSON")
        };
        for key in ["capacity", "grain_size", "of", "digests"] {
            assert_eq!(json("cut")[key], json("whole")[key], "{key}");
        }
    }
    let differing = told(&folder, "digest whole --grain").replacen("256 ", "257 ", 1);
    fs::write(folder.at("list"), differing).expect("written");
    let words = ["digest", "cut", "--grain", "--list", "list"];
    let ran = run(folder.path(), &words);
    assert_eq!(ran.status, Some(3));
    let inside = "sector 257 is not the first of its grain, which is 256";
    assert!(ran.text().contains(inside), "{}", ran.text());
}

/// Extents that do not begin at a grain, and one without grains.
#[test]
fn grains_of_a_disk_need_one_size_and_their_places() {
    let folder = all_types();
    let (base, plain) = ("RW 2048 SPARSE \"tool-base.vmdk\"\n", "FLAT \"plain\" 0\n");
    for (lines, fits) in [
        (format!("{base}RW 7 {plain}"), true),
        (format!("RW 7 {plain}{base}"), false),
        (format!("RW 7 {plain}"), false),
        (format!("{base}RW 256 ZERO\n{base}"), true),
        (format!("{base}RW 100 SPARSE \"lab.vmdk\"\n"), false),
    ] {
        descriptor(&folder, "disk", &lines);
        let ran = run(folder.path(), &["digest", "--grain", "disk"]);
        let status = if fits { 0 } else { 2 };
        assert_eq!(ran.status, Some(status), "{lines}");
        told(&folder, "digest disk");
    }
}

/// For one sector the other extents' files need not be there.
#[test]
fn a_sector_needs_its_own_file_alone() {
    let folder = all_types();
    for name in ["tool-base.vmdk", "lab.vmdk", "tool-packed.vmdk"] {
        fs::remove_file(folder.at(name)).expect("removed");
    }
    assert!(told(&folder, "sector all 2056").contains("extent 2 (plain), file sector 1"));
    assert!(told(&folder, "sector all 2048").contains("zero in extent 1"));
    let missing = "all: extent 3: lab.vmdk: cannot be opened";
    run(folder.path(), &["sector", "all", "2060"]).ill(missing);
    run(folder.path(), &["map", "all"]).ill("all: extent 0: tool-base.vmdk: cannot be opened");
}

/// Names are bytes, and what they lead to is looked at before it is opened.
#[test]
fn strange_names() {
    let folder = all_types();
    let name = b"p\xff \x1b[31m".to_vec();
    let path = folder.path().join(OsString::from_vec(name.clone()));
    fs::copy(folder.at("plain"), path).expect("a copy");
    let mut text = fs::read(folder.at("alone")).expect("a descriptor");
    let at = text.windows(5).position(|part| part == b"plain");
    let at = at.expect("a name");
    text.splice(at..at + 5, name);
    fs::write(folder.at("odd"), text).expect("written");
    let ran = run(folder.path(), &["sector", "odd", "0"]);
    ran.ended(1, "odd: extent 0: p\\xff \\x1b[31m: refused 45");

    let made = Command::new("mkfifo").arg(folder.at("pipe")).status();
    assert!(made.expect("mkfifo").success());
    descriptor(&folder, "waits", "RW 8 FLAT \"pipe\" 0\n");
    let ran = run_soon(folder.path(), &["check", "waits"]);
    assert_eq!(ran.status, Some(4));
    assert!(ran.text().contains("not read: is a named pipe"));
    run_soon(folder.path(), &["sector", "waits", "0"]).ill("pipe: is a named pipe");
}

/// Only a first line that is the descriptor's makes a file one; texts of other kinds are refused as images are.
#[test]
fn which_files_are_descriptors() {
    let folder = all_types();
    let text = fs::read_to_string(folder.at("all")).expect("a descriptor");
    for (start, number) in [
        ("\n \t\r\n", None),
        ("x", Some(2)),
        ("\0", Some(2)),
        ("KDMV\n", Some(1)),
    ] {
        fs::write(folder.at("disk"), start.to_string() + &text).expect("written");
        let ran = run(folder.path(), &["sector", "disk", "0"]);
        match number {
            None => ran.well(),
            Some(number) => ran.ended(1, &format!("disk: refused {number}: ")),
        };
    }
    for (end, number) in [("\0x", 31), (&"\n".repeat(65_536)[..], 36)] {
        fs::write(folder.at("disk"), text.clone() + end).expect("written");
        let refused = format!("disk: refused {number}: ");
        run(folder.path(), &["sector", "disk", "0"]).ended(1, &refused);
    }
}
