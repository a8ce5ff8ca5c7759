//! Split disks for the tests: texts of extent lines, and calls that read like their answers.

use plain::{split, Located, STORED, ZERO};

/// A sound text with these extent lines, from line 6 on.
pub fn text(lines: &[&str]) -> String {
    let keys =
        "# Disk DescriptorFile\nversion=1\nCID=1\nparentCID=ffffffff\ncreateType=\"custom\"\n";
    format!("{keys}{}", lines.join("\n"))
}

/// The answer for a text of these lines, and these files.
pub fn ask(lines: &[&str], files: &[&[u8]], sector: u64) -> Located {
    let lengths: Vec<u64> = files.iter().map(|file| file.len() as u64).collect();
    split(text(lines).as_bytes(), &files.concat(), &lengths, sector)
}

/// The number, extent and place of a refusal, whose other numbers are 0.
pub fn refused(lines: &[&str], files: &[&[u8]], sector: u64) -> (u64, u64, u64) {
    refusal(ask(lines, files, sector))
}

pub fn refusal(answer: Located) -> (u64, u64, u64) {
    let expected = Located {
        number: answer.number,
        layer: answer.layer,
        place: answer.place,
        ..Located::default()
    };
    assert_eq!(answer, expected);
    (answer.number, answer.layer, answer.place)
}

pub fn stored(extent: u64, sector: u64) -> Located {
    Located {
        layer: extent,
        kind: STORED,
        sector,
        ..Located::default()
    }
}

pub fn zeros(extent: u64) -> Located {
    Located {
        layer: extent,
        kind: ZERO,
        ..Located::default()
    }
}
