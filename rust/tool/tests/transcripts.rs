//! What the tool prints, compared with stored text, byte by byte. With ANHKHOVET_WRITE set the texts are written anew: look
//! at the difference before keeping it.
//!
//! A transcript has for each run a line `$ WORDS`, the lines of standard output, those of standard error after `! `, and
//! the exit status where it is not 0.

#[path = "common/broken.rs"]
mod broken;
mod common;
#[path = "common/dirty.rs"]
mod dirty;
#[path = "common/disks.rs"]
mod disks;
#[path = "common/labs.rs"]
mod labs;
#[path = "common/mends.rs"]
mod mends;
#[path = "common/outside.rs"]
mod outside;
#[path = "common/published.rs"]
mod published;

use common::{run, Folder};
use std::fs;
use std::path::Path;

const SAMPLES: [&str; 11] = [
    "cowd-s001.vmdk",
    "delta.vmdk",
    "monolithic-sparse.vmdk",
    "stream-optimized.vmdk",
    "tool-base.vmdk",
    "tool-middle.vmdk",
    "tool-packed.vmdk",
    "tool-top.vmdk",
    "two-gb-sparse.vmdk",
    "vmdkstream.vmdk",
    "zeroed-grain.vmdk",
];

/// Files that are no samples: broken ones, and lists.
fn add_files(folder: &Folder) {
    let base = fs::read(folder.at("tool-base.vmdk")).expect("a sample");
    fs::write(folder.at("empty"), b"").expect("written");
    fs::write(folder.at("short"), &base[..300]).expect("written");

    // Entry 256 stands in a redundant table and, after it, in the primary one.
    let entries: Vec<usize> = (21 * 512..65536)
        .step_by(4)
        .filter(|&at| base[at..at + 4] == [0, 1, 0, 0])
        .collect();
    assert_eq!(entries.len(), 2);
    let mut bytes = base.clone();
    for (at, name) in entries.iter().zip(["unequal", "shared"]) {
        bytes[*at..at + 4].copy_from_slice(&[128, 0, 0, 0]);
        fs::write(folder.at(name), &bytes).expect("written");
    }

    // Bytes of the header: version, capacity, the descriptor's sectors, its first sector.
    let header = |name: &str, changes: &[(usize, u8)]| {
        let mut bytes = base.clone();
        for (at, byte) in changes {
            bytes[*at] = *byte;
        }
        fs::write(folder.at(name), bytes).expect("written");
    };
    header("version", &[(4, 9)]);
    header("small", &[(13, 7)]);
    header("descriptor-past", &[(38, 1)]);
    header("without", &[(28, 0), (36, 0)]);

    let split = "# Disk DescriptorFile\nversion=1\nCID=1234abcd\nparentCID=ffffffff\n\
        createType=\"twoGbMaxExtentSparse\"\n\
        RW 4192256 SPARSE \"disk-s001.vmdk\"\nRDONLY 2048 FLAT \"disk-f002.vmdk\" 7\n";
    let text = |name: &str, from: &str, to: &str| {
        fs::write(folder.at(name), split.replace(from, to)).expect("written");
    };
    text("split", "", "");
    text("line-4", "parentCID=ffffffff", "parentCID");
    text("no-cid", "CID=1234abcd\n", "");
    text(
        "first-line",
        "# Disk DescriptorFile",
        "# Disk Descriptor File",
    );

    // What the three layers read as, as `digest --grain` prints it.
    let transcript = include_str!("transcripts/digest.txt");
    let list: Vec<&str> = transcript.lines().skip(18).take(16).collect();
    fs::write(folder.at("list-of-three"), list.join("\n")).expect("written");
}

fn transcript(name: &str) {
    let path = Path::new(env!("CARGO_MANIFEST_DIR"))
        .join("tests/transcripts")
        .join(name);
    let stored = fs::read_to_string(&path).expect("a transcript");
    let folder = Folder::new().with(&SAMPLES);
    disks::add(&folder);
    dirty::add(&folder);
    mends::add(&folder);
    labs::add(&folder);
    outside::add(&folder);
    published::add(&folder);
    broken::add(&folder);
    add_files(&folder);

    let mut now = String::new();
    for line in stored.lines() {
        if line.starts_with('#') {
            now = now + line + "\n";
        }
        let words = match line.strip_prefix("$ ") {
            Some(words) => words,
            None => continue,
        };
        let list: Vec<&str> = words.split(' ').collect();
        let ran = run(folder.path(), &list);
        now = now + "$ " + words + "\n" + &ran.text();
        for line in ran.err.lines() {
            now += format!("! {line}").trim_end();
            now.push('\n');
        }
        if ran.status != Some(0) {
            now += &match ran.status {
                Some(status) => format!("status {status}\n"),
                None => "ended by a signal\n".to_string(),
            };
        }
    }
    if std::env::var_os("ANHKHOVET_WRITE").is_some() {
        fs::write(&path, now).expect("written");
    } else {
        assert_eq!(now, stored, "{name}");
    }
}

macro_rules! transcripts {
    ($($name:ident)*) => {
        $(#[test]
        fn $name() {
            transcript(concat!(stringify!($name), ".txt"));
        })*
    };
}

transcripts!(
    check survey sector read map coverage digest collapse normal describe refusals outside split still_open mend moves
    profile close gone grade explain
);
