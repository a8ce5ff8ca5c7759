//! How kinds look: colours that people tell apart who do not tell red from green, and patterns for print without colour.

use super::kind::Kind;
use super::part::Part;

/// The colours of grains from the disk's first to its last, evenly apart: the later, the darker.
const RAMP: [[u64; 3]; 4] = [
    [0xc4, 0xe4, 0xf9],
    [0x7d, 0xc1, 0xec],
    [0x2b, 0x8c, 0xc4],
    [0x05, 0x3e, 0x66],
];

/// From this place on a grain is dark: what is written on it is white.
const DARK: u64 = 560;

/// The pattern of a kind: its name, its ground, and what is drawn on each square of 6 by 6.
type Pattern = (&'static str, &'static str, &'static str);

const PATTERNS: [Pattern; 12] = [
    (
        "descriptor",
        "#f0e442",
        r##"<path d="M0 1.5H6M0 4.5H6" stroke="#6b6400"/>"##,
    ),
    (
        "directory",
        "#e69f00",
        r##"<path d="M1.5 0V6M4.5 0V6" stroke="#5c3f00" stroke-width="1.2"/>"##,
    ),
    (
        "redundant_directory",
        "#fbe6bd",
        r##"<path d="M1.5 0V6M4.5 0V6" stroke="#b07900"/>"##,
    ),
    (
        "primary_table",
        "#009e73",
        r##"<path d="M0 0H3V3H0ZM3 3H6V6H3Z" fill="#004d38"/>"##,
    ),
    (
        "redundant_table",
        "#d3efe6",
        r##"<path d="M0 0H3V3H0ZM3 3H6V6H3Z" fill="#79c7b0"/>"##,
    ),
    ("footer", "#000", r##"<path d="M2 2H4V4H2Z" fill="#fff"/>"##),
    (
        "last_sector",
        "#777",
        r##"<path d="M0 3H6" stroke="#fff" stroke-width="2"/>"##,
    ),
    (
        "zero",
        "#f3dfea",
        r##"<circle cx="3" cy="3" r="1.7" fill="none" stroke="#a34f7d"/>"##,
    ),
    (
        "absent",
        "#fff",
        r##"<path d="M2.5 2.5H3.5V3.5H2.5Z" fill="#999"/>"##,
    ),
    (
        "refused",
        "#fff",
        r##"<path d="M0 0L6 6M6 0L0 6" stroke="#000" stroke-width="1.4"/>"##,
    ),
    (
        "shared",
        "#c00",
        r##"<path d="M0 0L6 6M6 0L0 6" stroke="#fff" stroke-width=".8"/>"##,
    ),
    (
        "packed",
        "none",
        r##"<path d="M-1 1L1 -1M0 6L6 0M5 7L7 5" stroke="#222"/>"##,
    ),
];

/// Over what a layer above hides: most of it is veiled.
const VEIL: Pattern = (
    "hidden",
    r##"#fff" fill-opacity=".72"##,
    r##"<path d="M-1 5L1 7M0 0L6 6M5 -1L7 1" stroke="#999" stroke-width=".6"/>"##,
);

fn hex(colour: [u64; 3]) -> String {
    let [red, green, blue] = colour;
    format!("#{red:02x}{green:02x}{blue:02x}")
}

/// The colour of a place on the disk, 0 to 1,000.
fn ramp(place: u64) -> String {
    let steps = RAMP.len() as u64 - 1;
    let along = place.min(1000) * steps;
    let step = (along / 1000).min(steps - 1);
    let (from, to) = (RAMP[step as usize], RAMP[step as usize + 1]);
    let (after, before) = (along - 1000 * step, 1000 * (step + 1) - along);
    hex([0, 1, 2].map(|part| (from[part] * before + to[part] * after) / 1000))
}

/// Where a part is on a disk of so many grains, 0 to 1,000.
fn place(part: &Part, grains: u64) -> u64 {
    part.grains.map_or(0, |span| span.place(grains))
}

/// The attribute for what fills a part, on a disk of so many grains.
pub fn fill(part: &Part, grains: u64) -> String {
    let colour = match part.main() {
        Kind::Stored | Kind::Packed => ramp(place(part, grains)),
        Kind::Header => "#000".to_string(),
        Kind::Nothing => "#fff".to_string(),
        kind => format!("url(#{})", kind.key()),
    };
    format!(r#"fill="{colour}""#)
}

/// Whether what is written on a part is white.
pub fn is_dark(part: &Part, grains: u64) -> bool {
    let stored = part.main() == Kind::Stored && !part.is_hidden();
    stored && place(part, grains) >= DARK && part.held() == part.sectors
}

fn pattern((name, ground, drawn): Pattern) -> String {
    let square = r#"width="6" height="6""#;
    let head = format!(r#"<pattern id="{name}" {square} patternUnits="userSpaceOnUse">"#);
    format!("{head}<rect {square} fill=\"{ground}\"/>{drawn}</pattern>\n")
}

/// Patterns, and the ramp for the legend.
pub fn definitions() -> String {
    let patterns = PATTERNS.into_iter().chain([VEIL]).map(pattern);
    let mut told = format!("<defs>\n{}", patterns.collect::<String>());
    told += "<linearGradient id=\"ramp\">";
    for (step, colour) in RAMP.iter().enumerate() {
        let offset = step as f64 / (RAMP.len() - 1) as f64;
        told += &format!(
            r#"<stop offset="{offset:.3}" stop-color="{}"/>"#,
            hex(*colour)
        );
    }
    told + "</linearGradient>\n</defs>"
}

#[cfg(test)]
mod tests {
    use super::*;

    #[test]
    fn later_grains_are_darker() {
        let light = |place| {
            let colour = u64::from_str_radix(&ramp(place)[1..], 16).expect("a colour");
            3 * (colour >> 16) + 6 * (colour >> 8 & 255) + (colour & 255)
        };
        assert!((0..1000)
            .step_by(20)
            .all(|place| light(place) > light(place + 20)));
        assert_eq!((ramp(0), ramp(1000)), (hex(RAMP[0]), hex(RAMP[3])));
    }
}
