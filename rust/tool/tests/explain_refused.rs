//! `explain` where a sector is refused: the way as far as it goes, the refusal, and what helps.

mod common;
#[path = "common/explained.rs"]
mod explained;
#[path = "common/outside.rs"]
mod outside;

use common::Folder;
use explained::{agrees, list, names, object, ran, stands};
use std::fs;

/// A refusal: the steps of the last way, and words of the last one.
fn refused(folder: &Folder, files: &str, sector: u64, number: u64, steps: &str, end: &str) {
    let words = ran(folder, &format!("explain {files} {sector}"));
    let found = ran(folder, &format!("sector {files} {sector}"));
    // Remarks stand on standard error, as with `sector`; the refusal itself is the answer.
    let (remarks, sentence) = match found.err.trim_end().rsplit_once('\n') {
        Some((remarks, sentence)) => (format!("{remarks}\n"), sentence),
        None => (String::new(), found.err.trim_end()),
    };
    assert_eq!((words.status, words.err), (Some(1), remarks), "{files}");
    let sentence = sentence.trim_start_matches("anhkhovet: ");
    assert!(
        sentence.contains(&format!("refused {number}")),
        "{sentence}"
    );
    let text = String::from_utf8_lossy(&words.out).into_owned();
    let (way, help) = text.split_once(sentence).expect("the refusal");
    assert!(way.ends_with(end), "{way}");
    // Then comes what `refusals` says, and where the place points if that is not said yet.
    let rule = ran(folder, &format!("refusals {number}")).well().text();
    let said = |line: &str| rule.lines().any(|said| said == line);
    assert!(
        help.lines().all(|line| line.is_empty() || said(line)),
        "{help}"
    );
    for word in ["rule ", "cause ", "try "] {
        assert!(help.lines().any(|line| line.starts_with(word)), "{help}");
    }
    let points = help.lines().any(|line| line.starts_with("place "));
    assert_eq!(points, matches!(number, 9 | 10), "{help}");

    let told = object(&ran(folder, &format!("explain --json {files} {sector}")));
    stands(folder, &told);
    let found = object(&ran(folder, &format!("sector --json {files} {sector}")));
    assert_eq!(told["refused"], found["refused"], "{files}");
    assert_eq!(
        (&told["rule"]["number"], &told["sector"]),
        (&number.into(), &sector.into())
    );
    let last = list(&told["ways"]).last();
    let told = last.map_or_else(Vec::new, names).join(", ");
    assert_eq!(told, steps, "{files}");
}

const TO_GRAIN: &str = "header, header, grain, directory entry, table entry, end";

fn folder() -> Folder {
    let folder = Folder::new().with(&["tool-base.vmdk", "tool-middle.vmdk", "tool-packed.vmdk"]);
    outside::add(&folder);
    let write = |name: &str, of: &str, at: usize, bytes: &[u8]| {
        let mut image = fs::read(folder.at(of)).expect("a sample");
        image[at..at + bytes.len()].copy_from_slice(bytes);
        fs::write(folder.at(name), image).expect("written");
    };
    let (table, marker) = (27 * 512, 128 * 512);
    write("grain-past", "tool-base.vmdk", table + 2, &[1]);
    write("marker-past", "tool-packed.vmdk", table + 6, &[1]);
    write("payload-past", "tool-packed.vmdk", marker + 10, &[2]);
    write("stranger", "tool-packed.vmdk", marker, &[0]);
    write("no-payload", "tool-packed.vmdk", marker + 8, &[0]);
    folder
}

/// An image, a sector of it, the refusal, the steps to it, and what the last one says.
type OnTheWay = (&'static str, u64, u64, &'static str, &'static str);

const TO_MARKER: &str =
    "header, header, grain, directory entry, table entry, header, marker, marker";

const ON_THE_WAY: [OnTheWay; 8] = [
    ("four-past", 2, 8, "header, header, grain, end", "the directory takes 1 sector from file sector 16777242 on, and the file's last one is 383"),
    ("directory-0", 2, 8, "header, header, grain, end", "file sector 0 is the header's, so no directory begins there"),
    ("two-past", 2, 8, "header, header, grain, directory entry, end", "the table takes 4 sectors from file sector 16777243 on, and the file's last one is 383"),
    ("grain-past", 2, 9, TO_GRAIN, "the grain takes 128 sectors from file sector 65664 on, and the file's last one is 383"),
    ("marker-past", 130, 9, TO_GRAIN, "the marker takes 1 sector from file sector 65664 on, and the file's last one is 256"),
    ("payload-past", 130, 9, "header, header, grain, directory entry, table entry, header, marker, marker, end", "the grain of 12 + 131157 bytes takes 257 sectors from file sector 128 on, and the file's last one is 256"),
    ("stranger", 130, 10, TO_MARKER, "at byte 65536 + 8 = 65544 stand 55 00 00 00 = 85, the bytes of its payload, at least 1"),
    ("no-payload", 130, 10, TO_MARKER, "at byte 65536 + 8 = 65544 stand 00 00 00 00 = 0, the bytes of its payload, at least 1"),
];

/// The way goes as far as it does, and then it is told what is wrong.
#[test]
fn refusals_on_the_way() {
    let folder = folder();
    for (file, sector, number, steps, words) in ON_THE_WAY {
        refused(
            &folder,
            file,
            sector,
            number,
            steps,
            &format!(": {words}\n"),
        );
    }
}

/// No way leads there: the refusal stands alone, with what helps.
#[test]
fn refusals_before_the_way() {
    let folder = folder();
    fs::copy(common::sample("cowd-s001.vmdk"), folder.at("old")).expect("a sample");
    fs::copy(common::sample("vmdkstream.vmdk"), folder.at("small")).expect("a sample");
    fs::write(folder.at("empty"), b"").expect("written");
    for (files, sector, number) in [
        ("tool-base.vmdk", 2048, 20),
        ("old", 2, 43),
        ("old", 9_999_999, 43),
        ("empty", 0, 1),
        ("tool-base.vmdk old", 0, 43),
        ("tool-base.vmdk small", 0, 22),
        ("past", 999_999, 20),
    ] {
        refused(&folder, files, sector, number, "", "");
    }
}

/// Above a layer that is refused stand those that were asked before it, and none below is asked.
#[test]
fn a_refused_layer() {
    let folder = folder();
    refused(
        &folder,
        "tool-base.vmdk grain-past tool-middle.vmdk",
        2,
        9,
        TO_GRAIN,
        "is 383\n",
    );
    let told = ran(
        &folder,
        "explain --json tool-base.vmdk grain-past tool-middle.vmdk 2",
    );
    let told = object(&told);
    let layers = list(&told["ways"]).iter();
    let layers: Vec<u64> = layers.filter_map(|way| way["layer"].as_u64()).collect();
    assert_eq!(layers, [2, 1]);
    // What a layer above has hides it.
    agrees(&folder, "grain-past tool-middle.vmdk", 130);
}

/// The file of an extent is checked as a whole, so it may be refused for what is not on the way.
#[test]
fn refused_extents() {
    let folder = folder();
    outside::describe(&folder, "disk", &["grain-past", "tool-base.vmdk"], 2048);
    refused(&folder, "disk", 2, 9, TO_GRAIN, "is 383\n");
    let extent =
        "extent: 0 has the disk's sectors 0 to 2047, so there it is sector 130 - 0 = 130\n";
    refused(&folder, "disk", 130, 9, "", extent);
    agrees(&folder, "disk", 2048 + 130);
    let five = "extent: 0 has the disk's sectors 0 to 2047, so there it is sector 2 - 0 = 2\n";
    refused(&folder, "past", 2, 8, "", five);
    let steps = "header, header, grain, end";
    refused(&folder, "past", 2050, 8, steps, "is 383\n");
}

/// What is no refusal is told as by any other command.
#[test]
fn failures() {
    let folder = folder();
    ran(&folder, "explain missing 0").ill("missing: cannot be opened");
    ran(&folder, "explain tool-base.vmdk").ended(2, "for '<N>'");
    ran(&folder, "explain - 0").ended(2, "standard input");
    let failed = object(&ran(&folder, "explain --json missing 0"));
    assert!(failed["failed"].is_string(), "{failed}");
}
