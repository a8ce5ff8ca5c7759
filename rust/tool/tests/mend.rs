//! `mend`: what it lists, what it writes, and what it leaves alone.

mod common;
#[path = "common/image.rs"]
mod image;
#[path = "common/mends.rs"]
mod mends;

use common::{run, Folder};
use image::{Image, GRAIN};
use mends::{BEHIND_ZERO, STORY, TABLES};
use serde_json::{json, Value};
use std::collections::BTreeSet;
use std::fs;
use std::os::unix::fs::MetadataExt;

const SAMPLES: [&str; 3] = ["tool-base.vmdk", "tool-middle.vmdk", "tool-packed.vmdk"];

/// The samples, and images whose sides differ.
fn folder() -> Folder {
    let folder = Folder::new().with(&SAMPLES);
    mends::add(&folder);
    folder
}

fn words(text: &str) -> Vec<&str> {
    text.split(' ').collect()
}

fn told(folder: &Folder, text: &str) -> Value {
    let ran = run(folder.path(), &words(text));
    serde_json::from_slice(&ran.well().out).expect("an object")
}

fn bytes(folder: &Folder, name: &str) -> Vec<u8> {
    fs::read(folder.at(name)).expect("a file")
}

/// Version 1 stopped its comparison at a zero byte, and took these two entries for the same.
#[test]
fn an_entry_that_differs_behind_a_zero_byte() {
    let folder = folder();
    let [primary, redundant] = TABLES;
    let story = bytes(&folder, "story");
    assert_eq!(story[primary..primary + 4], STORY);
    assert_eq!(story[redundant..redundant + 4], BEHIND_ZERO);
    assert_eq!((STORY[..2] == BEHIND_ZERO[..2], STORY[1]), (true, 0));

    let ran = run(folder.path(), &["check", "story"]);
    assert_eq!(ran.status, Some(1));
    assert!(ran.text().starts_with("story: refused 11: "));
    let said = told(&folder, "mend --json --good primary story -o mended");
    let changes = json!([{
        "grain": 0, "first": 0, "sectors": 128,
        "old": { "entry": 65664, "refused": {
            "number": 9, "place": 0, "sentence": "the grain runs past the end of the file",
        } },
        "new": { "entry": 128, "kind": "stored" },
    }]);
    assert_eq!(said["changes"], changes);
    assert_eq!(
        (&said["count"], &said["differing"]),
        (&json!(1), &json!([]))
    );
    // The sample is what it was made of.
    assert!(bytes(&folder, "mended") == bytes(&folder, SAMPLES[0]));
    run(folder.path(), &["check", "mended"]).well();
}

/// The same where the file is long enough for the other entry: either side is sound then, and only the caller knows.
#[test]
fn either_side_may_be_good() {
    let folder = folder();
    let file = fs::File::options().write(true).open(folder.at("story"));
    file.expect("the image")
        .set_len(512 * (65664 + GRAIN))
        .expect("a length");
    for (good, entry) in [("primary", STORY), ("redundant", BEHIND_ZERO)] {
        let text = format!("mend --json --good {good} story -o {good}");
        let said = told(&folder, &text);
        assert_eq!(said["other_side_too"], true);
        let mended = bytes(&folder, good);
        for table in TABLES {
            assert_eq!(mended[table..table + 4], entry);
        }
        run(folder.path(), &["check", good]).well();
        let text = run(folder.path(), &["mend", "--good", good, "story"])
            .well()
            .text();
        let other = if good == "primary" {
            "redundant"
        } else {
            "primary"
        };
        let wanted = format!(
            "it can be mended from its {other} tables too: which side is good is for you to say\n"
        );
        assert!(text.contains(&wanted), "{text}");
        // Now the sides are alike, and there is nothing to choose.
        let again = told(&folder, &format!("mend --json --good {other} {good}"));
        assert_eq!(
            (&again["count"], &again["changes"]),
            (&json!(0), &json!([]))
        );
    }
}

/// The sectors of which two images have other digests.
fn differing(folder: &Folder, one: &str, another: &str) -> BTreeSet<u64> {
    let lines = |name| {
        let text = run(folder.path(), &["digest", name]).well().text();
        text.lines().map(String::from).collect::<Vec<_>>()
    };
    let (one, another) = (lines(one), lines(another));
    assert_eq!(one.len(), another.len());
    let both = one
        .iter()
        .zip(&another)
        .filter(|(one, another)| one != another);
    both.map(|(line, _)| {
        line.split(' ')
            .next()
            .expect("a sector")
            .parse()
            .expect("a number")
    })
    .collect()
}

#[test]
fn sectors_that_differ_are_those_with_other_digests() {
    let folder = folder();
    for (name, some) in [
        ("newer", true),
        ("clipped", true),
        ("many", true),
        ("zero-and-absent", false),
    ] {
        let said = told(
            &folder,
            &format!("mend --json --good redundant {name} -o {name}-mended"),
        );
        let runs = said["differing"].as_array().expect("runs").iter();
        let listed: BTreeSet<u64> = runs
            .flat_map(|run| {
                let number = |key: &str| run[key].as_u64().expect("a number");
                assert_eq!(number("byte_offset"), 512 * number("first"));
                assert_eq!(number("length"), 512 * number("sectors"));
                number("first")..number("first") + number("sectors")
            })
            .collect();
        assert_eq!(
            listed,
            differing(&folder, name, &format!("{name}-mended")),
            "{name}"
        );
        assert_eq!(!listed.is_empty(), some, "{name}");
        let primary = told(
            &folder,
            &format!("mend --json --good primary {name} -o {name}-primary"),
        );
        assert_eq!(primary["differing"], json!([]), "{name}");
        assert_eq!(
            differing(&folder, name, &format!("{name}-primary")),
            BTreeSet::new()
        );
    }
}

/// Only the named side's entries in use change: no other byte of the file.
#[test]
fn no_other_byte_changes() {
    let folder = folder();
    let [primary, redundant] = TABLES;
    for (good, from, to) in [
        ("primary", primary, redundant),
        ("redundant", redundant, primary),
    ] {
        for (name, used) in [
            ("newer", 16),
            ("clipped", 2),
            ("many", 256),
            ("packed-and-absent", 16),
        ] {
            let before = bytes(&folder, name);
            let facts = fs::metadata(folder.at(name)).expect("facts");
            let out = format!("{name}-{good}");
            told(
                &folder,
                &format!("mend --json --good {good} {name} -o {out}"),
            );
            let mut wanted = before.clone();
            wanted.copy_within(from..from + 4 * used, to);
            assert!(bytes(&folder, &out) == wanted, "{out}");
            assert!(bytes(&folder, name) == before, "{name} was written");
            let now = fs::metadata(folder.at(name)).expect("facts");
            assert_eq!(
                (now.mtime_nsec(), now.ctime_nsec()),
                (facts.mtime_nsec(), facts.ctime_nsec())
            );
        }
    }
}

/// Neither a refusal nor a listing leaves anything.
#[test]
fn nothing_is_written_without_an_output_or_an_answer() {
    let folder = folder();
    let names = folder.names();
    run(folder.path(), &words("mend --good redundant newer")).well();
    for name in ["unpaired", "one-directory", "twice-named", "story"] {
        let text = format!("mend --good redundant {name} -o out");
        run(folder.path(), &words(&text)).ended(1, "refused 40: ");
        assert_eq!(folder.names(), names);
    }
}

/// A link to the image is no plain file, and its other name is the image itself.
#[test]
fn the_image_is_never_the_output() {
    let folder = folder();
    let before = bytes(&folder, "newer");
    fs::hard_link(folder.at("newer"), folder.at("hard")).expect("a link");
    std::os::unix::fs::symlink("newer", folder.at("soft")).expect("a link");
    for (out, why) in [
        ("newer", "is one of the files that are read"),
        ("./newer", "is one of the files that are read"),
        ("hard", "is one of the files that are read"),
        ("soft", "is not a plain file"),
    ] {
        let text = format!("mend --good primary newer --force -o {out}");
        run(folder.path(), &words(&text)).ill(why);
        let text = format!("mend --good primary soft --force -o {out}");
        run(folder.path(), &words(&text)).ill(why);
    }
    assert!(bytes(&folder, "newer") == before);
}

/// A disk of 8 GiB with an entry for each of its grains, of which all differ: words tell some, JSON all.
#[test]
fn a_long_disk_with_holes() {
    let folder = Folder::new();
    let grains = 1 << 17;
    let disk = Image::twofold(&folder.at("disk"), GRAIN * grains).filled();
    for grain in 0..grains {
        disk.copy(grain, disk.start + GRAIN * (grains - 1 - grain));
    }
    disk.put(512 * disk.start, b"first");
    let said = told(&folder, "mend --json --good redundant disk -o out");
    assert_eq!(said["count"], grains);
    let changes = said["changes"].as_array().expect("changes");
    let numbers = changes.iter().map(|change| change["grain"].as_u64());
    assert!(numbers.eq((0..grains).map(Some)));
    let runs = said["differing"].as_array().expect("runs").iter();
    let firsts: Vec<_> = runs.map(|run| run["first"].as_u64()).collect();
    assert_eq!(firsts, [Some(0), Some(GRAIN * (grains - 1))]);

    let [before, after] = ["disk", "out"].map(|name| fs::metadata(folder.at(name)).expect("facts"));
    assert_eq!(before.len(), after.len());
    assert!(after.blocks() <= before.blocks() + 256, "holes are filled");
    run(folder.path(), &["check", "out"]).well();
    let text = run(folder.path(), &words("mend --good redundant disk"))
        .well()
        .text();
    assert!(text.contains(&format!("and {} more, which --all lists\n", grains - 20)));
    let all = run(folder.path(), &words("mend --good redundant disk --all"));
    assert_eq!(all.well().text().lines().count(), grains as usize + 8);
}
