//! One strip: its parts, what is written on them, and a frame around.

use super::kind::Kind;
use super::labels::width;
use super::numbers::grouped;
use super::paint;
use super::part::Part;
use super::scale::{Scale, LEFT, LONG};
use super::svg::{Rectangle, Svg};
use super::titles::{title, Strip};

/// What is there is drawn at least so high and so wide, however small its share.
const LOW: f64 = 5.0;
const THIN: f64 = 2.0;

/// A part goes on below the next one, so that no seam is seen between them.
const BELOW: f64 = 1.0;

/// Narrower parts have no edge of their own: it would be all that is seen.
const EDGED: f64 = 7.0;
const EDGE: &str = r##"fill="none" stroke="#333" stroke-width=".6" pointer-events="none""##;

/// What is the same for all strips of a picture.
#[derive(Clone, Copy)]
pub struct Look {
    /// Grains of the disk.
    pub grains: u64,
    pub strip: Strip,
    pub y: f64,
    pub height: f64,
}

pub fn draw(svg: &mut Svg, look: Look, parts: &[Part], scale: &Scale) {
    // What is empty comes first, so that what is there and thin is seen on it.
    for empty in [true, false] {
        for (number, part) in parts.iter().enumerate() {
            if part.main().is_empty() == empty {
                let (x, wide) = scale.place(number);
                let covered = parts
                    .get(number + 1)
                    .map_or(false, |next| !next.main().is_empty());
                draw_part(svg, look, part, x, wide + if covered { BELOW } else { 0.0 });
            }
        }
    }
    let frame = Rectangle {
        x: LEFT,
        y: look.y,
        width: LONG,
        height: look.height,
    };
    svg.rectangle(
        frame,
        r##"fill="none" stroke="#000" stroke-width="1.2" pointer-events="none""##,
    );
    for (number, part) in parts.iter().enumerate() {
        write_on(svg, look, part, scale.place(number));
    }
}

/// The share of a part's height that is filled: all of it where something is wrong or where it is empty.
fn share(part: &Part, height: f64) -> f64 {
    let wrong = matches!(part.main(), Kind::Shared | Kind::Refused);
    if wrong || part.held() == 0 {
        return 1.0;
    }
    let share = part.held() as f64 / part.sectors as f64;
    share.max(LOW / height).min(1.0)
}

fn draw_part(svg: &mut Svg, look: Look, part: &Part, x: f64, wide: f64) {
    let width = wide.max(THIN);
    let whole = Rectangle {
        x: x.min(LEFT + LONG - width),
        y: look.y,
        width,
        height: look.height,
    };
    let share = share(part, look.height);
    let held = whole.lowest(share);
    svg.titled(&title(look.strip, part), |svg| {
        if share < 1.0 {
            let empty = if part.of(Kind::Absent) > 0 {
                "url(#absent)"
            } else {
                "#fff"
            };
            svg.rectangle(whole, &format!(r#"fill="{empty}""#));
        }
        svg.rectangle(held, &paint::fill(part, look.grains));
        if part.main() == Kind::Packed {
            svg.rectangle(held, r#"fill="url(#packed)""#);
        }
        if part.is_hidden() {
            svg.rectangle(held, r#"fill="url(#hidden)""#);
        }
        if wide >= EDGED {
            svg.rectangle(whole, EDGE);
        }
    });
}

/// The words on a part, where they have room.
fn write_on(svg: &mut Svg, look: Look, part: &Part, (x, wide): (f64, f64)) {
    let tall = look.height >= 34.0;
    let both = words(look.strip, part);
    let lines: Vec<&String> = both
        .iter()
        .filter(|line| !line.is_empty() && width(line) + 6.0 < wide)
        .collect();
    let lines = match (lines.as_slice(), tall) {
        ([.., last], false) => vec![*last],
        (lines, _) => lines.to_vec(),
    };
    let middle = look.y + look.height / 2.0 + 4.0;
    let class = if paint::is_dark(part, look.grains) {
        "on dark"
    } else {
        "on"
    };
    for (number, line) in lines.iter().enumerate() {
        let down = (number as f64 - (lines.len() as f64 - 1.0) / 2.0) * 14.0;
        svg.text(
            x + wide / 2.0,
            middle + down,
            &format!(r#" class="{class}""#),
            line,
        );
    }
}

/// Which grains, and what they are; of a part that is no grain what it is.
fn words(strip: Strip, part: &Part) -> [String; 2] {
    let kind = part.main();
    let kinds = part.kinds().count();
    let grains = match part.grains {
        Some(span) if span.count == 1 => format!("grain {}", grouped(span.lowest)),
        Some(span) if span.in_order => {
            format!("grains {}–{}", grouped(span.lowest), grouped(span.highest))
        }
        Some(span) => format!("{} grains", grouped(span.count)),
        None => String::new(),
    };
    let word = match kind {
        Kind::Shared | Kind::Refused => String::new(),
        kind if kinds == 1 && !kind.is_frame() => kind.word().to_string(),
        _ => String::new(),
    };
    match (strip, kind) {
        (Strip::File, Kind::Stored) => [String::new(), grains],
        _ => [grains, word],
    }
}
