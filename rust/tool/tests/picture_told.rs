//! `picture`: what is said of what is drawn, and what is refused.

mod common;
#[path = "picture/images.rs"]
mod images;
#[path = "picture/pixels.rs"]
mod pixels;

use common::run;
use images::{changed, folder, markup};
use pixels::{can_draw, part, parts, Pixels};
use serde_json::Value;
use std::fs;

#[test]
fn names_are_escaped() {
    let folder = folder();
    let name = "a<b>&\"c\"'\u{1b}\u{ffff}.vmdk";
    fs::copy(folder.at("tool-base.vmdk"), folder.at(name)).expect("a copy");
    let markup = markup(&folder, &[name], "odd.svg");
    let told = "a&lt;b&gt;&amp;&quot;c&quot;'\\x1b\\xef\\xbf\\xbf.vmdk";
    assert!(
        markup.contains(&format!("<title>Picture of {told}</title>")),
        "{}",
        &markup[..900]
    );
    assert!(!markup.contains("a<b>"));
    if can_draw() {
        Pixels::of(folder.path(), "odd.svg");
    }
    let long = format!("{}.vmdk", "n".repeat(200));
    fs::copy(folder.at("tool-base.vmdk"), folder.at(&long)).expect("a copy");
    let markup = self::markup(&folder, &[&long], "long.svg");
    assert!(markup.contains(&long) && markup.contains("nnn … nnn"));
}

/// What `check` refuses with a lower number has no areas to draw: it is refused with the same sentence.
#[test]
fn other_refusals_are_those_of_the_check() {
    let folder = folder();
    fs::write(folder.at("1"), b"KDMV").expect("written");
    fs::write(folder.at("2"), [7; 600]).expect("written");
    let header: [(&str, usize, u8); 5] = [
        ("3", 4, 9),
        ("4", 73, 0),
        ("5", 4, 1),
        ("6", 44, 1),
        ("8", 51, 1),
    ];
    for (name, at, byte) in header {
        changed(&folder, "tool-middle.vmdk", name, &[(at, &[byte])]);
    }
    let stream = fs::read(common::sample("vmdkstream.vmdk")).expect("a sample");
    fs::write(folder.at("7"), &stream[..68000]).expect("written");
    for name in ["1", "2", "3", "4", "5", "6", "7", "8"] {
        let check = run(folder.path(), &["check", name]).text();
        assert!(
            check.starts_with(&format!("{name}: refused {name}: ")),
            "{check}"
        );
        let ran = run(folder.path(), &["picture", name, "-o", "none.svg"]);
        assert_eq!(
            (ran.status, ran.err),
            (Some(1), format!("anhkhovet: {check}"))
        );
    }
    let ran = run(
        folder.path(),
        &["picture", "tool-base.vmdk", "8", "-o", "none.svg"],
    );
    ran.ended(1, "8: refused 8: the redundant directory");
    assert!(!folder.at("none.svg").exists());
}

#[test]
fn refused_from_9_on_is_drawn() {
    let folder = folder();
    let base = fs::read(folder.at("tool-base.vmdk")).expect("a sample");
    fs::write(folder.at("9"), &base[..base.len() - 1]).expect("written");
    changed(&folder, "tool-packed.vmdk", "10", &[(66048, &[7])]);
    changed(&folder, "tool-base.vmdk", "11", &[(11264, &[128, 0, 1, 0])]);
    fs::rename(folder.at("twice.vmdk"), folder.at("12")).expect("renamed");
    for (name, title) in [
        (
            "9",
            "grain 1, refused: virtual sectors 128 to 255; refused 9 at grain 1: ",
        ),
        (
            "10",
            "grain 3, refused: virtual sectors 384 to 511; refused 10 at grain 3: ",
        ),
        ("11", "redundant table: file sectors 22 to 25"),
        (
            "12",
            "in two areas: file sector 255; here are grain 0 and grain 1",
        ),
    ] {
        let check = run(folder.path(), &["check", name]).text();
        let sentence = check.split(" (").next().unwrap_or_default().trim();
        let to = format!("{name}.svg");
        let ran = run(folder.path(), &["picture", name, "-o", &to]);
        let told = ran.well().text();
        assert!(
            told.starts_with(sentence) && told.contains(&format!("\n{to}: written, ")),
            "{told}"
        );
        let markup = fs::read_to_string(folder.at(&to)).expect("a picture");
        part(&parts(&markup), title);
        let verdict = sentence.split_once(": ").expect("a verdict").1;
        assert!(markup.contains(&format!(">check: {verdict}<")), "{verdict}");
    }
}

#[test]
fn outputs_are_those_of_other_commands() {
    let folder = folder();
    let picture = |words: &[&str]| run(folder.path(), &[&["picture"], words].concat());
    picture(&["tool-base.vmdk"]).ended(2, "--output <OUT>");
    picture(&["tool-base.vmdk", "-o", "-"]).ended(2, "a picture is a file");
    picture(&["-", "-o", "out"]).ended(2, "standard input");
    picture(&["missing", "-o", "out"]).ill("missing: cannot be opened");
    let before = fs::read(folder.at("tool-base.vmdk")).expect("a sample");
    picture(&["tool-base.vmdk", "-o", "tool-base.vmdk", "--force"]).ill("tool-base.vmdk: ");
    assert!(fs::read(folder.at("tool-base.vmdk")).expect("a sample") == before);
    picture(&["tool-base.vmdk", "-o", "out.svg"]).well();
    picture(&["tool-base.vmdk", "-o", "out.svg"])
        .ill("out.svg: exists already; --force replaces it");
    picture(&["tool-base.vmdk", "-o", "out.svg", "--force"]).well();
    assert!(!folder.names().iter().any(|name| name.ends_with(".part")));

    let ran = picture(&["--json", "twice.vmdk", "-o", "twice.svg"]);
    let said: Value = serde_json::from_slice(&ran.well().out).expect("an object");
    assert_eq!(
        (
            &said["output"],
            said["layers"][0]["refused"]["number"].as_u64()
        ),
        (&"twice.svg".into(), Some(12))
    );
    let markup = fs::read_to_string(folder.at("twice.svg")).expect("a picture");
    assert_eq!(said["parts"].as_u64(), Some(parts(&markup).len() as u64));
}

/// Of a disk that was still open it is said beside the verdict, as `check` does.
#[test]
fn a_disk_that_was_still_open() {
    let folder = folder();
    changed(&folder, "tool-base.vmdk", "open.vmdk", &[(72, &[1])]);
    let words = ["picture", "--json", "open.vmdk", "-o", "open.svg"];
    let ran = run(folder.path(), &words);
    ran.ended(0, "open.vmdk: the disk was still open when it was copied");
    let said: Value = serde_json::from_slice(&ran.out).expect("an object");
    assert_eq!(said["open_files"][0], "open.vmdk");
    let markup = fs::read_to_string(folder.at("open.svg")).expect("a picture");
    assert!(markup.contains(">check: accepted; the disk was still open when it was copied<"));
}
