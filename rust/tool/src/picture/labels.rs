//! Words above a strip, each with a line down to its part. They stand like stairs: what is further left stands higher, so that
//! no line crosses a word.

use super::kind::Kind;
use super::numbers::counted;
use super::part::Part;
use super::scale::{stretches, Scale};
use super::svg::Svg;

/// Of a word's height, and about that of a letter's width.
pub const ROW: f64 = 14.0;
pub const LETTER: f64 = 6.7;

/// What is wrong is named so often at most.
const WRONG: usize = 4;

pub struct Label {
    x: f64,
    text: String,
    wrong: bool,
    /// From 0, next to the strip.
    row: usize,
}

/// As wide as a text may be.
pub fn width(text: &str) -> f64 {
    text.chars().count() as f64 * LETTER
}

/// The words for what a file has beside its grains, each once, and for what is wrong.
pub fn labels(parts: &[Part], scale: &Scale) -> Vec<Label> {
    let mut labels = Vec::new();
    let mut named = Vec::new();
    for (first, end) in stretches(parts) {
        let kind = parts[first].main();
        let often = named.iter().filter(|known| **known == kind).count();
        let wrong = matches!(kind, Kind::Shared | Kind::Refused);
        if kind.is_frame() && often == 0 || wrong && often < WRONG {
            named.push(kind);
            let (x, wide) = scale.stretch(first, end);
            labels.push(Label {
                x: x + wide.min(24.0) / 2.0,
                text: text(kind, &parts[first..end]),
                wrong,
                row: 0,
            });
        }
    }
    placed(labels)
}

fn text(kind: Kind, parts: &[Part]) -> String {
    let areas: u64 = parts.iter().map(|part| part.areas).sum();
    let refusal = parts.iter().find_map(|part| part.refused);
    match (kind, refusal) {
        (Kind::Refused, Some(refusal)) => format!("refused {}", refusal.number),
        (kind, _) if kind.is_frame() && areas > 1 => counted(areas, kind.word(), kind.words(areas)),
        (kind, _) => kind.word().to_string(),
    }
}

/// From right to left: a word stands above those whose lines it would meet.
fn placed(mut labels: Vec<Label>) -> Vec<Label> {
    for at in (0..labels.len()).rev() {
        let end = labels[at].x + 4.0 + width(&labels[at].text) + LETTER;
        let met = labels[at + 1..].iter().filter(|label| label.x <= end);
        labels[at].row = met.map(|label| label.row + 1).max().unwrap_or(0);
    }
    labels
}

/// The height of all of them.
pub fn height(labels: &[Label]) -> f64 {
    let rows = labels.iter().map(|label| label.row + 1).max();
    rows.map_or(0.0, |rows| rows as f64 * ROW + 4.0)
}

/// Above a strip that begins at `y`.
pub fn draw(svg: &mut Svg, labels: &[Label], y: f64) {
    for Label {
        x,
        text,
        wrong,
        row,
    } in labels
    {
        let base = y - 6.0 - *row as f64 * ROW;
        svg.line(
            (*x, base - 8.0),
            (*x, y),
            r##" stroke="#444" stroke-width=".8""##,
        );
        let look = match (wrong, text.as_str() == Kind::Shared.word()) {
            (true, true) => r#" class="wrong red""#,
            (true, false) => r#" class="wrong""#,
            (false, _) => "",
        };
        svg.text(x + 4.0, base, look, text);
    }
}
