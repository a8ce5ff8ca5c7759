//! `move`: what it writes, one file or sixty, what it leaves alone, and its digests.

mod common;
#[path = "common/image.rs"]
mod image;
#[path = "common/labs.rs"]
mod labs;

use common::{names, run, Folder};
use image::{Image, GRAIN};
use labs::{lab, raw};
use serde_json::Value;
use sha2::{Digest, Sha256};
use std::ffi::OsStr;
use std::fs;
use std::os::unix::ffi::OsStrExt;
use std::os::unix::fs::symlink;

const SAMPLES: [&str; 5] = [
    "cowd-s001.vmdk",
    "monolithic-sparse-data.vmdk",
    "tool-base.vmdk",
    "tool-middle.vmdk",
    "tool-packed.vmdk",
];

fn words(text: &str) -> Vec<&str> {
    text.split(' ').collect()
}

fn told(folder: &Folder, text: &str) -> Value {
    let ran = run(folder.path(), &words(text));
    serde_json::from_slice(&ran.well().out).expect("an object")
}

fn bytes(folder: &Folder, name: &str) -> Vec<u8> {
    fs::read(folder.at(name)).expect("a file")
}

fn hash(bytes: &[u8]) -> String {
    let hash = Sha256::digest(bytes);
    hash.iter().map(|byte| format!("{byte:02x}")).collect()
}

/// A folder with the samples, and labs by their numbers.
fn folder(labs: std::ops::Range<u8>) -> Folder {
    let folder = Folder::new().with(&SAMPLES);
    for number in labs {
        fs::write(folder.at(&format!("lab-{number}")), lab(number, 8)).expect("written");
    }
    fs::create_dir(folder.at("moved")).expect("a folder");
    folder
}

/// What an image reads as: a digest for each sector, and the runs of sectors of one kind, without their places.
fn read_as(folder: &Folder, name: &str) -> Vec<String> {
    run(folder.path(), &["check", name]).well();
    let digests = run(folder.path(), &["digest", name]).well().text();
    let map = run(folder.path(), &["map", name]).well().text();
    let runs = map
        .lines()
        .skip(3)
        .map(|line| line.chars().take(42).collect());
    runs.chain([digests]).collect()
}

#[test]
fn there_and_back() {
    let folder = folder(0..0);
    for (sample, kind, other) in [
        ("cowd-s001.vmdk", "KDMV", "COWD"),
        ("tool-base.vmdk", "COWD", "KDMV"),
        ("monolithic-sparse-data.vmdk", "COWD", "KDMV"),
    ] {
        let before = bytes(&folder, sample);
        let [there, back, again] = ["there", "back", "again"].map(|step| format!("{step}-{kind}"));
        let mut digests = Vec::new();
        for (from, to, kind) in [
            (sample, &there, kind),
            (&there, &back, other),
            (&back, &again, kind),
        ] {
            let said = told(&folder, &format!("move --json --force {from} -o {to}"));
            assert_eq!((&said["kind"], &said["file"]), (&kind.into(), &from.into()));
            let image = bytes(&folder, to);
            assert!(image.starts_with(kind.as_bytes()));
            assert_eq!(said["length"], image.len());
            digests.push(said["digest"].clone());
        }
        assert!(digests.iter().all(|digest| *digest == digests[0]));
        // Those of the four that are KDMV are the same sector by sector, and kind by kind.
        let four = [sample, &there, &back, &again];
        let (young, old) = if kind == "KDMV" {
            ([1, 3], [0, 2])
        } else {
            ([0, 2], [1, 3])
        };
        let [one, other] = young.map(|at: usize| read_as(&folder, four[at]));
        assert_eq!(one, other, "{sample}");
        for at in old {
            let text = run(folder.path(), &["check", four[at]]).text();
            assert!(text.contains("refused 43: "), "{text}");
        }
        assert!(bytes(&folder, &there) == bytes(&folder, &again), "{sample}");
        assert!(before == bytes(&folder, sample), "{sample} was written");
    }
    // From KDMV there and back is the normal form.
    run(folder.path(), &words("move tool-base.vmdk -o old")).well();
    run(folder.path(), &words("move old -o new")).well();
    run(folder.path(), &words("normal tool-base.vmdk -o normal")).well();
    assert!(bytes(&folder, "new") == bytes(&folder, "normal"));
}

#[test]
fn the_digest_is_that_of_the_raw_disk() {
    let folder = folder(7..8);
    let said = told(&folder, "move --json lab-7 -o out");
    assert_eq!(said["digest"], hash(&raw(7)));
    let back = told(&folder, "move --json out -o back");
    assert_eq!(back["digest"], said["digest"]);
    let line = "cowd-s001.vmdk: moved to KDMV: new, 20480 bytes, its sectors' digest ";
    // As qemu-img reads it: samples/cowd.vmdk.raw.sha256 has the only part of the raw disk.
    let stored = fs::read_to_string(common::sample("cowd.vmdk.raw.sha256")).expect("a digest");
    let digest = stored.split_whitespace().last().expect("a digest");
    let text = run(folder.path(), &words("move cowd-s001.vmdk -o new"));
    assert_eq!(text.well().text(), format!("{line}{digest}\n"));
}

#[test]
fn sixty_labs_at_once() {
    let folder = folder(0..60);
    let labs: Vec<String> = (0..60).map(|number| format!("lab-{number}")).collect();
    let files: Vec<&str> = labs.iter().map(String::as_str).collect();
    let words = [&["move"], &files[..], &["-o", "moved"]].concat();
    let text = run(folder.path(), &words).well().text();
    let mut lines = text.lines();
    for (number, lab) in (0..60).zip(&labs) {
        let digest = hash(&raw(number));
        let line =
            format!("{lab}: moved to KDMV: moved/{lab}, 12288 bytes, its sectors' digest {digest}");
        assert_eq!(lines.next(), Some(&line[..]));
        assert!(bytes(&folder, lab) == labs::lab(number, 8));
        run(folder.path(), &["check", &format!("moved/{lab}")]).well();
    }
    assert_eq!(lines.collect::<Vec<_>>(), ["60 of 60 files moved"]);
    assert_eq!(names(&folder.at("moved")).len(), 60);
    // Once more they are all there; by force they are replaced.
    run(folder.path(), &words).ill("moved/lab-59: exists already; --force replaces it");
    let forced = [&words[..], &["--force", "--json"]].concat();
    let said: Value = serde_json::from_slice(&run(folder.path(), &forced).well().out).expect("one");
    let all = said["files"].as_array().expect("a list");
    assert_eq!(all.len(), 60);
    assert_eq!(all[59]["output"], "moved/lab-59");
    assert_eq!(all[59]["digest"], hash(&raw(59)));
}

#[test]
fn the_others_are_moved_where_one_is_refused() {
    let folder = folder(1..3);
    fs::write(folder.at("of-4"), lab(3, 4)).expect("written");
    let files = "lab-1 of-4 missing tool-middle.vmdk lab-2";
    let ran = run(folder.path(), &words(&format!("move {files} -o moved")));
    ran.ill("missing: cannot be opened");
    ran.ended(4, "of-4: refused 44: ");
    assert!(ran.text().ends_with("\n2 of 5 files moved\n"));
    assert_eq!(names(&folder.at("moved")), ["lab-1", "lab-2"]);
    let ran = run(
        folder.path(),
        &words(&format!("move --json --force {files} -o moved")),
    );
    let said: Value = serde_json::from_slice(&ran.out).expect("an object");
    let told = |index: usize, key: &str| said["files"][index][key].clone();
    assert_eq!((ran.status, told(0, "kind")), (Some(4), "KDMV".into()));
    assert_eq!(told(1, "refused")["number"], 44);
    assert_eq!(told(1, "refused")["detail"], "its grain size is 4");
    assert!(told(2, "failed").is_string());
    assert_eq!(told(3, "refused")["detail"], "grain 2 is marked as zeros");
    assert_eq!(told(4, "digest"), hash(&raw(2)));
}

#[test]
fn words_that_cannot_be() {
    let folder = folder(1..3);
    fs::create_dir(folder.at("other")).expect("a folder");
    fs::copy(folder.at("lab-1"), folder.at("other/lab-1")).expect("copied");
    let before = folder.names();
    for (text, said) in [
        (
            "move lab-1 other/lab-1 -o moved",
            "other/lab-1: has the name of another",
        ),
        (
            "move lab-1 lab-1 -o moved",
            "lab-1: has the name of another",
        ),
        (
            "move lab-1 lab-2 -o out",
            "out: is not a folder that is there",
        ),
        (
            "move lab-1 lab-2 -o tool-base.vmdk",
            "tool-base.vmdk: is not a folder",
        ),
        ("move lab-1 -o -", "it cannot go to `-`"),
        ("move - -o out", "it cannot come from `-`"),
        ("move lab-1", "--output"),
    ] {
        run(folder.path(), &words(text)).ended(2, said);
    }
    assert_eq!(folder.names(), before);
    assert!(names(&folder.at("moved")).is_empty());
}

/// The file itself is never an output, by whatever name.
#[test]
fn a_file_that_is_read_is_not_written() {
    let folder = folder(1..3);
    symlink(".", folder.at("here")).expect("a link");
    fs::hard_link(folder.at("lab-1"), folder.at("same")).expect("a name");
    for text in [
        "move lab-1 -o lab-1 --force",
        "move lab-1 -o same --force",
        "move lab-1 -o . --force",
        "move lab-1 -o here --force",
        "move lab-2 lab-1 -o . --force",
    ] {
        run(folder.path(), &words(text)).ill("is one of the files that are read");
    }
    assert!(bytes(&folder, "lab-1") == lab(1, 8) && bytes(&folder, "lab-2") == lab(2, 8));
    // Neither is one that another file of the command would go to.
    fs::write(folder.at("moved/lab-1"), lab(2, 8)).expect("written");
    let text = "move lab-1 moved/lab-1 -o moved --force";
    run(folder.path(), &words(text)).ended(2, "moved/lab-1: has the name of another");
    assert!(bytes(&folder, "moved/lab-1") == lab(2, 8));
}

#[test]
fn refusals_tell_why() {
    let folder = folder(1..2);
    fs::write(folder.at("of-2"), lab(3, 2)).expect("written");
    let mut open = lab(1, 8);
    open[1648] = 1;
    fs::write(folder.at("open"), open).expect("written");
    for (file, said) in [
        ("of-2", "of-2: refused 44: a grain of under 8 sectors has no place in KDMV, and a grain marked as zeros none in COWD (its grain size is 2)"),
        ("tool-middle.vmdk", "none in COWD (grain 2 is marked as zeros)"),
        ("tool-packed.vmdk", "tool-packed.vmdk: refused 23: collapse, normal form, lab profile and moves take no compressed image, and a move takes the other kind alone (it is compressed)"),
        ("open", "open: refused 27: the disk was still open"),
    ] {
        run(folder.path(), &["move", file, "-o", "out"]).ended(1, said);
    }
    assert!(!folder.at("out").exists());
}

/// Nothing of a name acts on a terminal; in JSON it is itself, or its bytes stand beside it.
#[test]
fn names_as_they_are_told() {
    let folder = folder(0..0);
    let odd = OsStr::from_bytes(b"bell\x07\xff");
    fs::write(folder.path().join(odd), lab(5, 8)).expect("written");
    let moved = |more: &[&str]| {
        let mut command = common::tool(folder.path());
        command
            .arg("move")
            .arg(odd)
            .args(["-o", "moved", "--force"]);
        let ran = common::Ran::of(command.args(more).output().expect("the tool starts"));
        ran.well().text()
    };
    let line = "bell\\x07\\xff: moved to KDMV: moved/bell\\x07\\xff, 12288 bytes, ";
    assert!(moved(&[]).starts_with(line));
    let said: Value = serde_json::from_str(&moved(&["--json"])).expect("an object");
    assert_eq!(said["files"][0]["file_bytes"], "62656c6c07ff");
    assert_eq!(said["files"][0]["output_bytes"], "6d6f7665642f62656c6c07ff");
    assert!(fs::metadata(folder.at("moved").join(odd)).is_ok());
}

/// A disk of 1 GiB with few grains takes no longer than its grains and its digest do, and no more room.
#[test]
fn a_long_disk() {
    let folder = Folder::in_memory();
    let capacity = 1 << 21;
    let image = Image::new(&folder.at("disk"), capacity);
    for (count, grain) in [3, 700, 5000, capacity / GRAIN - 1].into_iter().enumerate() {
        let at = image.start + GRAIN * count as u64;
        image.entry(grain, at);
        image.put(512 * at, &[grain as u8; 512]);
    }
    image.length(512 * (image.start + 4 * GRAIN));
    let said = told(&folder, "move --json disk -o old");
    // 4 sectors, one of directory, 4 tables of 32, and the grains.
    assert_eq!(said["length"], 512 * (5 + 4 * 32 + 4 * GRAIN));
    let back = told(&folder, "move --json old -o new");
    assert_eq!(back["digest"], said["digest"]);
    let [one, other] = ["disk", "new"].map(|name| run(folder.path(), &["digest", "--grain", name]));
    assert!(one.well().out == other.well().out);
}
