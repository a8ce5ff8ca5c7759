//! The footer of an image whose directory is at the end, and the last sector: what rule 7 asks of them.

use super::kdmv::{zeros, AT_END};
use super::row::{Asked, Row};
use crate::start::number;
use anhkhovet::SECTOR;

/// The bytes of the directory's sector, the only ones in which footer and header may differ.
const DIRECTORY: std::ops::Range<usize> = 56..64;

/// With fewer sectors in the file there is no room for one.
pub const LEAST: u64 = 4;

fn seven(met: bool, words: &'static str) -> Asked {
    Asked {
        number: 7,
        met,
        words,
    }
}

/// The footer, its directory sector, and the last sector; nothing where there is no room for them.
pub fn rows(own: &[u8]) -> Vec<Row> {
    let sectors = own.len() as u64 / SECTOR;
    if sectors < LEAST {
        return Vec::new();
    }
    let place = |sector: u64| (sector * SECTOR) as usize..((sector + 1) * SECTOR) as usize;
    let (footer, last) = (&own[place(sectors - 2)], &own[place(sectors - 1)]);
    let row = |at, bytes: &[u8], name, meaning, asked| Row {
        at: Some((sectors - 2) * SECTOR + at),
        bytes: bytes.to_vec(),
        name,
        number: None,
        meaning,
        asked: vec![asked],
        note: "",
    };
    let same = differing(own, footer).is_empty();
    let same = seven(same, "as sector 0 but for bytes 56 to 63");
    let zero = seven(last.iter().all(|byte| *byte == 0), "all zero");
    let directory = number(footer, 56, 8);
    let told = match directory {
        AT_END => "all ones".to_string(),
        sector => sector.to_string(),
    };
    let once = seven(directory != AT_END, "not all ones again");
    let name = "footer's directory sector";
    let field = row(56, &footer[DIRECTORY], name, told, once);
    vec![
        row(0, footer, "footer", differences(own, footer), same),
        Row {
            number: Some(directory),
            ..field
        },
        row(SECTOR, last, "last sector", zeros(last), zero),
    ]
}

/// The bytes of a footer that are not the header's, but for those that need not be.
fn differing(header: &[u8], footer: &[u8]) -> Vec<usize> {
    let differs = |at: &usize| !DIRECTORY.contains(at) && header[*at] != footer[*at];
    (0..footer.len()).filter(differs).collect()
}

fn differences(header: &[u8], footer: &[u8]) -> String {
    match differing(header, footer)[..] {
        [] => "sector 0 again, but for the next field".to_string(),
        [at] => format!(
            "byte {at} is {:02x}, and {:02x} in sector 0",
            footer[at], header[at]
        ),
        [at, ..] => {
            let all = differing(header, footer).len();
            format!("{all} bytes differ from sector 0, the first is byte {at}")
        }
    }
}
