//! What the colours and patterns mean, of those that are there.

use super::kind::{Kind, KINDS};
use super::numbers::counted;
use super::paint;
use super::part::Part;
use super::scale::LEFT;
use super::svg::{Rectangle, Svg};
use super::Picture;

const COLUMNS: usize = 3;
const COLUMN: f64 = 350.0;
const ROW: f64 = 22.0;

/// A swatch, its fill, what is laid over it, and its words.
struct Entry {
    fill: String,
    over: &'static str,
    words: &'static str,
}

fn words(kind: Kind) -> &'static str {
    match kind {
        Kind::Header => "header",
        Kind::Descriptor => "descriptor, a text",
        Kind::Directory => "directory: names the tables",
        Kind::RedundantDirectory => "redundant directory, a copy",
        Kind::PrimaryTable => "table: names the grains",
        Kind::RedundantTable => "redundant table, a copy",
        Kind::Footer => "footer: the header once more",
        Kind::LastSector => "the sector after the footer",
        Kind::Stored => "stored grain: the later on the disk, the darker",
        Kind::Packed => "packed grain: the later, the darker",
        Kind::Zero => "zero: it reads as zeros, and takes no room",
        Kind::Absent => "absent: not in this file, so a parent is asked",
        Kind::Refused => "refused: there is no answer for it",
        Kind::Shared => "in two areas, which the rules forbid",
        Kind::Nothing => "nothing holds these sectors",
    }
}

fn entry(kind: Kind) -> Entry {
    let fill = match kind {
        Kind::Stored | Kind::Packed => r#"fill="url(#ramp)""#.to_string(),
        kind => paint::fill(&Part::new(0, 1, kind), 1),
    };
    let over = if kind == Kind::Packed { "packed" } else { "" };
    Entry {
        fill,
        over,
        words: words(kind),
    }
}

/// Those of what is drawn.
fn entries(picture: &Picture) -> Vec<Entry> {
    let there = |kind: Kind| picture.parts().any(|part| part.of(kind) > 0);
    let kinds = KINDS
        .iter()
        .map(|(kind, ..)| *kind)
        .filter(|kind| there(*kind));
    let mut entries: Vec<Entry> = kinds.map(entry).collect();
    if picture.parts().any(|part| part.hidden > 0) {
        entries.push(Entry {
            fill: r#"fill="url(#ramp)""#.to_string(),
            over: "hidden",
            words: "pale: hidden by a layer above, never read",
        });
    }
    entries
}

/// Column by column, and what else there is to know. Where it ends.
pub fn draw(mut svg: Svg, picture: &Picture, y: f64) -> (f64, Svg) {
    let entries = entries(picture);
    let rows = (entries.len() + COLUMNS - 1) / COLUMNS;
    for (number, Entry { fill, over, words }) in entries.iter().enumerate() {
        let x = LEFT + COLUMN * (number / rows) as f64;
        let top = y + ROW * (number % rows) as f64;
        let swatch = Rectangle {
            x,
            y: top,
            width: 36.0,
            height: 15.0,
        };
        svg.rectangle(swatch, fill);
        if !over.is_empty() {
            svg.rectangle(swatch, &format!(r#"fill="url(#{over})""#));
        }
        svg.rectangle(swatch, r##"fill="none" stroke="#333" stroke-width=".6""##);
        svg.text(x + 44.0, top + 12.0, "", words);
    }
    let mut y = y + ROW * rows as f64 + 12.0;
    for line in notes(picture) {
        svg.text(LEFT, y, r#" class="small""#, &line);
        y += 15.0;
    }
    (y + 4.0, svg)
}

fn notes(picture: &Picture) -> Vec<String> {
    let mut notes = vec![
        "Point at a part to see what it is. Numbers below strips are sectors of 512 bytes.".to_string(),
        "The disk is drawn to scale. In a file small parts are drawn wider than they are, so that they are seen.".to_string(),
    ];
    let together = picture.parts().filter(|part| part.together).count() as u64;
    if together > 0 {
        let all = counted(picture.parts().count() as u64, "part", "parts");
        notes.push(format!(
            "Of {all} {} put together from smaller ones, and drawn as high as the share of their sectors that are in use.",
            counted(together, "is", "are"),
        ));
    }
    notes
}
