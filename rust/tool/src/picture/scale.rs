//! Where the parts of a strip are drawn, and the numbers below it.

use super::numbers::grouped;
use super::part::Part;
use super::svg::Svg;

/// Where a strip begins, and how long it is.
pub const LEFT: f64 = 24.0;
pub const LONG: f64 = 930.0;

/// Parts of a file in a row that look alike are at least so wide together, and each of them, where that takes no more than
/// these shares of the strip.
const LEAST: f64 = 8.0;
const ALIKE: f64 = 0.3;
const EACH: f64 = 0.2;

/// Between numbers, and for each of their digits and commas.
const GAP: f64 = 16.0;
const DIGIT: f64 = 6.4;

/// The edges of a strip's parts, from the first one's beginning to the last one's end.
pub struct Scale(Vec<f64>);

impl Scale {
    /// Of a file: small parts are wider than they are, or a header would never be seen.
    pub fn of_file(parts: &[Part]) -> Scale {
        let least = least(parts);
        let sectors: u64 = parts.iter().map(|part| part.sectors).sum();
        let each = (LONG - least.iter().sum::<f64>()) / sectors.max(1) as f64;
        Scale::of(
            parts
                .iter()
                .zip(least)
                .map(|(part, least)| least + part.sectors as f64 * each),
        )
    }

    /// Of the disk: the same for all layers, so that what hides stands above what is hidden.
    pub fn of_disk(parts: &[Part]) -> Scale {
        let sectors: u64 = parts.iter().map(|part| part.sectors).sum();
        let each = LONG / sectors.max(1) as f64;
        Scale::of(parts.iter().map(|part| part.sectors as f64 * each))
    }

    fn of(widths: impl Iterator<Item = f64>) -> Scale {
        let mut edges = vec![LEFT];
        let mut edge = LEFT;
        edges.extend(widths.map(|wide| {
            edge += wide;
            edge
        }));
        Scale(edges)
    }

    /// Where a part begins, by its number, and how wide it is.
    pub fn place(&self, number: usize) -> (f64, f64) {
        (self.0[number], self.0[number + 1] - self.0[number])
    }

    /// Where some parts in a row begin, and how wide they are together.
    pub fn stretch(&self, first: usize, end: usize) -> (f64, f64) {
        (self.0[first], self.0[end] - self.0[first])
    }
}

/// Numbers of parts in a row that look alike: the first, and the one after the last.
pub fn stretches(parts: &[Part]) -> Vec<(usize, usize)> {
    let mut stretches: Vec<(usize, usize)> = Vec::new();
    for number in 0..parts.len() {
        match stretches.last_mut() {
            Some((first, end)) if parts[*first].main() == parts[number].main() => *end = number + 1,
            _ => stretches.push((number, number + 1)),
        }
    }
    stretches
}

/// The least width of each part of a file.
fn least(parts: &[Part]) -> Vec<f64> {
    let stretches = stretches(parts);
    let share = |share: f64, count: usize| LEAST.min(share * LONG / count.max(1) as f64);
    let (alike, each) = (share(ALIKE, stretches.len()), share(EACH, parts.len()));
    let least = |(first, end): (usize, usize)| {
        let count = end - first;
        std::iter::repeat(each.max(alike / count as f64)).take(count)
    };
    stretches.into_iter().flat_map(least).collect()
}

/// How far numbers have to be apart, the greatest of which is this.
fn apart(greatest: u64) -> f64 {
    grouped(greatest).len() as f64 * DIGIT + GAP
}

/// The first sectors of parts as numbers below a strip, as many as have room, and its end.
pub fn file_ticks(svg: &mut Svg, y: f64, parts: &[Part], scale: &Scale) {
    let end = LEFT + LONG;
    let apart = apart(parts.last().map_or(0, Part::end));
    let mut last = f64::NEG_INFINITY;
    for (number, part) in parts.iter().enumerate() {
        let (x, _) = scale.place(number);
        if x - last >= apart && end - x >= apart {
            tick(svg, x, y, part.first);
            last = x;
        }
    }
    if let Some(part) = parts.last() {
        tick(svg, end, y, part.end());
    }
}

/// Multiples of a power of two of the grain size, and the capacity.
pub fn disk_ticks(svg: &mut Svg, y: f64, capacity: u64, grain_size: u64) {
    let each = LONG / capacity as f64;
    let apart = apart(capacity);
    let mut step = grain_size;
    while step as f64 * each < apart {
        step *= 2;
    }
    let mut sector = 0;
    while sector < capacity {
        let x = LEFT + sector as f64 * each;
        if LEFT + LONG - x >= apart {
            tick(svg, x, y, sector);
        }
        sector += step;
    }
    tick(svg, LEFT + LONG, y, capacity);
}

fn tick(svg: &mut Svg, x: f64, y: f64, number: u64) {
    svg.line((x, y), (x, y + 4.0), r##" stroke="#444""##);
    svg.text(x, y + 15.0, r#" class="tick""#, &grouped(number));
}
