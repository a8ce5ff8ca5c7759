//! `survey`: counts as the map has them, files that are refused or cannot be read, and more of them than one call takes.

mod common;
#[path = "common/image.rs"]
mod image;

use common::{emulated, names, run, run_soon, samples, Folder, Ran, TOOL};
use image::{Image, GRAIN};
use serde_json::{json, Value};
use std::ffi::CString;
use std::fs;
use std::os::unix::ffi::OsStrExt;
use std::path::Path;
use std::process::Command;

const KINDS: [&str; 4] = ["stored", "zero", "absent", "packed"];

fn object(ran: &Ran) -> Value {
    assert_eq!(ran.err, "");
    serde_json::from_slice(&ran.out).expect("one object")
}

fn number(value: &Value) -> u64 {
    value.as_u64().expect("a number")
}

/// The grains of each kind, counted from the runs of a map.
fn mapped(folder: &Path, file: &str) -> [u64; 4] {
    let map = object(run(folder, &["map", "--json", file]).well());
    let size = number(&map["grain_size"]);
    KINDS.map(|kind| {
        let runs = map["runs"].as_array().expect("runs").iter();
        let of_kind = runs.filter(|run| run["kind"] == kind);
        of_kind
            .map(|run| (number(&run["sectors"]) + size - 1) / size)
            .sum()
    })
}

fn counts(object: &Value) -> [u64; 4] {
    KINDS.map(|kind| number(&object[kind]))
}

/// Every sample: packed ones, streams, and some that are texts or COWD and so refused.
#[test]
fn counts_are_those_of_the_map() {
    let folder = samples();
    let mut files = names(&folder);
    files.retain(|name| name.ends_with(".vmdk"));
    let mut words = vec!["survey", "--json"];
    words.extend(files.iter().map(String::as_str));
    let said = object(run(&folder, &words).well());
    let rows = said["files"].as_array().expect("rows");
    assert_eq!(rows.len(), files.len());
    let (mut totals, mut accepted, mut capacity) = ([0; 4], 0, 0);
    for (row, file) in rows.iter().zip(&files) {
        assert_eq!(row["file"], *file);
        if row.get("accepted").is_none() {
            let number = if file == "cowd-s001.vmdk" { 43 } else { 2 };
            assert_eq!(row["refused"]["number"], number, "{row}");
            continue;
        }
        let found = counts(&row["accepted"]);
        assert_eq!(found, mapped(&folder, file), "{file}");
        let size = number(&row["accepted"]["grain_size"]);
        let sectors = number(&row["accepted"]["capacity"]);
        let grains: u64 = found.iter().sum();
        assert_eq!(grains, (sectors + size - 1) / size, "{file}");
        for (total, count) in totals.iter_mut().zip(found) {
            *total += count;
        }
        accepted += 1;
        capacity += sectors;
    }
    assert!(totals.iter().all(|total| *total > 0), "{totals:?}");
    assert_eq!(counts(&said["totals"]), totals);
    assert_eq!(said["totals"]["capacity"], capacity);
    assert_eq!(said["totals"]["images"], accepted);
    assert_eq!(said["tally"][0]["images"], files.len() - accepted - 1);
    assert_eq!(
        (&said["tally"][1]["number"], &said["tally"][1]["images"]),
        (&json!(43), &json!(1))
    );
    assert_eq!(said["unread"], 0);
}

/// Two images that are accepted, one cut, one with two faults, one that is COWD, one that is none, and what cannot be read.
fn mixed() -> Folder {
    let folder = Folder::new().with(&["tool-base.vmdk", "tool-packed.vmdk", "cowd-s001.vmdk"]);
    let base = fs::read(folder.at("tool-base.vmdk")).expect("a sample");
    fs::write(folder.at("cut"), &base[..base.len() - 512]).expect("written");
    let mut packed = fs::read(folder.at("tool-packed.vmdk")).expect("a sample");
    packed.truncate(129 * 512);
    fs::write(folder.at("cut-too"), packed).expect("written");
    fs::write(folder.at("empty"), b"").expect("written");
    fs::create_dir(folder.at("folder")).expect("a folder");
    let path = CString::new(folder.at("pipe").as_os_str().as_bytes()).expect("a name");
    // SAFETY: a string that ends in a zero byte.
    assert_eq!(unsafe { libc::mkfifo(path.as_ptr(), 0o600) }, 0);
    folder
}

const MIXED: [&str; 10] = [
    "missing",
    "tool-base.vmdk",
    "cut",
    "pipe",
    "tool-packed.vmdk",
    "empty",
    "cut-too",
    "folder",
    "cowd-s001.vmdk",
    "tool-base.vmdk",
];

#[test]
fn what_cannot_be_read_stands_in_its_row() {
    let folder = mixed();
    let words = [&["survey", "--json"], &MIXED[..]].concat();
    let ran = run_soon(folder.path(), &words);
    assert_eq!(ran.status, Some(4));
    let said = object(&ran);
    let verdict = |row: &Value| match (row["accepted"].is_object(), row["failed"].as_str()) {
        (true, None) => 0,
        (false, None) => number(&row["refused"]["number"]),
        (_, Some(failed)) => {
            assert!(failed.starts_with(row["file"].as_str().expect("a name")));
            99
        }
    };
    let rows = said["files"].as_array().expect("rows");
    let verdicts: Vec<u64> = rows.iter().map(verdict).collect();
    assert_eq!(verdicts, [99, 0, 9, 99, 0, 1, 9, 99, 43, 0]);
    let tally: Vec<[u64; 2]> = said["tally"]
        .as_array()
        .expect("a tally")
        .iter()
        .map(|tallied| [number(&tallied["number"]), number(&tallied["images"])])
        .collect();
    assert_eq!(tally, [[1, 1], [9, 2], [43, 1]]);
    assert_eq!(
        (&said["totals"]["images"], &said["unread"]),
        (&json!(3), &json!(3))
    );
    // Twice two of the base; two of the packed image.
    assert_eq!(counts(&said["totals"]), [4, 0, 42, 2]);
}

/// The same in words: a line for each file, then the totals, and lines for what is no image.
#[test]
fn lines_for_people() {
    let folder = mixed();
    let ran = run_soon(folder.path(), &[&["survey"], &MIXED[..]].concat());
    assert_eq!((ran.status, ran.err.as_str()), (Some(4), ""));
    let text = ran.text();
    let lines: Vec<&str> = text.lines().collect();
    assert!(lines[0].starts_with("name "), "{text}");
    for (line, name) in lines[1..].iter().zip(MIXED) {
        assert_eq!(line.split(' ').next(), Some(name), "{text}");
    }
    let words = [
        (1, "not read: cannot be opened: No such file"),
        (2, "1.0  2  12.5%  0   0.0%  14  87.5%  0   0.0%  accepted"),
        (3, "refused 9 at grain 1: the grain runs past the end"),
        (4, "not read: is a named pipe and not a plain file"),
        (6, "refused 1: the file is too short"),
        (
            11,
            "3.0  4   8.3%  0   0.0%  42  87.5%  2   4.2%  3 of 10 accepted",
        ),
        (12, "refused 1, 1 image: the file is too short"),
        (13, "refused 9, 2 images: the grain runs past"),
        (14, "refused 43, 1 image: it is a COWD image"),
        (15, "not read: 3 files"),
    ];
    for (line, wanted) in words {
        let plain = lines[line].split_whitespace().collect::<Vec<_>>().join(" ");
        let wanted = wanted.split_whitespace().collect::<Vec<_>>().join(" ");
        assert!(plain.contains(&wanted), "no '{wanted}' in: {plain}");
    }
    assert_eq!(lines.len(), 16);
}

/// Refused images alone are an answer, and a share of nothing is none.
#[test]
fn refused_images_are_status_0() {
    let folder = mixed();
    let text = run(folder.path(), &["survey", "cut", "empty"])
        .well()
        .text();
    let total = text.lines().nth(3).expect("the totals");
    let cells: Vec<&str> = total.split_whitespace().collect();
    assert_eq!(cells[..4], ["total", "0.0", "0", "-"]);
    assert!(total.ends_with("  0 of 2 accepted"), "{total}");
}

/// A little of much is not nothing, and nearly all is not all; the last grain counts, though capacity ends inside it.
#[test]
fn shares_at_both_ends() {
    let folder = Folder::new();
    let disk = Image::new(&folder.at("disk"), 8000 * GRAIN + 1);
    disk.entry(8000, 1);
    let text = run(folder.path(), &["survey", "disk"]).well().text();
    let row = text.lines().nth(1).expect("a row");
    let cells: Vec<&str> = row.split_whitespace().collect();
    let wanted = [
        "disk", "500.0", "0", "0.0%", "1", "<0.1%", "8000", ">99.9%", "0", "0.0%", "accepted",
    ];
    assert_eq!(cells, wanted);
}

/// Makes an image without tables, whose 16 grains are absent, of this length and under this many names.
fn empty_disks(folder: &Folder, start: &str, count: usize, length: u64) {
    let first = folder.at(start);
    let disk = Image::new(&first, 16 * GRAIN);
    disk.put(512, &[0; 4]);
    disk.length(length);
    for number in 1..count {
        fs::hard_link(&first, folder.at(&format!("{start}-{number}"))).expect("a link");
    }
}

/// More files than one call of the library takes, and than may be open at once; longer, all together, than the address space.
#[test]
fn more_and_longer_files_than_fit_at_once() {
    let folder = Folder::new();
    let (many, long, length) = if emulated() {
        (1030, 4, 1 << 30)
    } else {
        (3000, 130, 1 << 40)
    };
    empty_disks(&folder, "short", many, 8192);
    empty_disks(&folder, "long", long, length);
    let runner = std::env::var("ANHKHOVET_RUNNER").unwrap_or_default();
    let script = format!("ulimit -n 64; exec {runner} '{TOOL}' survey --json *");
    let output = Command::new("sh")
        .arg("-c")
        .arg(script)
        .current_dir(folder.path())
        .output();
    let said = object(Ran::of(output.expect("a shell")).well());
    let files = said["files"].as_array().expect("rows").len();
    assert_eq!(files, many + long);
    assert_eq!(counts(&said["totals"]), [0, 0, 16 * files as u64, 0]);
}

/// A blank at the end of a name is seen.
#[test]
fn names_that_end_in_a_blank() {
    let folder = Folder::new().with(&["tool-base.vmdk"]);
    fs::rename(folder.at("tool-base.vmdk"), folder.at("base  ")).expect("renamed");
    let text = run(folder.path(), &["survey", "base  "]).well().text();
    let row = text.lines().nth(1).expect("a row");
    assert!(row.starts_with("base \\x20  1.0"), "{text}");
}
