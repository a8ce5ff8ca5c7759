//! The table: one row for each rival of each measure.

use std::fmt;
use std::time::Duration;

/// A time, of a whole call or of each of many parts.
#[derive(Clone, Copy, Debug, PartialEq)]
pub struct Figure {
    nanoseconds: f64,
    /// What it is the time of, as in " a byte"; empty for a whole call.
    part: &'static str,
}

impl Figure {
    pub fn whole(time: Duration) -> Figure {
        Figure::each(time, 1, "")
    }

    pub fn each(time: Duration, parts: u64, part: &'static str) -> Figure {
        Figure {
            nanoseconds: time.as_nanos() as f64 / parts as f64,
            part,
        }
    }
}

impl fmt::Display for Figure {
    fn fmt(&self, f: &mut fmt::Formatter) -> fmt::Result {
        let (unit, name) = match self.nanoseconds {
            small if small < 1e3 => (1.0, "ns"),
            small if small < 1e6 => (1e3, "µs"),
            small if small < 1e9 => (1e6, "ms"),
            _ => (1e9, "s"),
        };
        write!(f, "{} {name}{}", short(self.nanoseconds / unit), self.part)
    }
}

/// Three digits that count, at most four of them after the point.
pub fn short(value: f64) -> String {
    let before = if value > 0.0 {
        value.log10().floor()
    } else {
        0.0
    };
    let after = (2.0 - before).clamp(0.0, 4.0) as usize;
    format!("{value:.after$}")
}

/// 1234567 as 1,234,567.
pub fn grouped(number: u64) -> String {
    let digits = number.to_string();
    let mut shown = String::new();
    for (index, digit) in digits.chars().enumerate() {
        if index > 0 && (digits.len() - index) % 3 == 0 {
            shown.push(',');
        }
        shown.push(digit);
    }
    shown
}

/// A figure, or why there is none.
pub type Timed = Result<Figure, String>;

#[derive(Default)]
pub struct Report {
    rows: Vec<String>,
    notes: Vec<String>,
    /// The left cells of the next row, and the time to compare with.
    measure: Option<(String, Timed)>,
    written: bool,
}

impl Report {
    /// Begins a measure: the rivals that follow are compared with `ours`.
    pub fn measure(&mut self, call: &str, input: &str, ours: &Timed) {
        let left = format!("| {call} | {input} | {} ", shown(ours));
        self.measure = Some((left, ours.clone()));
        self.written = false;
    }

    /// One row. The ratio is our time by theirs: below 1 the proved library is the faster one.
    pub fn against(&mut self, rival: &str, theirs: &Timed) {
        let (left, ours) = self.measure.as_ref().expect("a measure was begun");
        let ratio = match (ours, theirs) {
            (Ok(ours), Ok(theirs)) => short(ours.nanoseconds / theirs.nanoseconds),
            _ => "-".to_string(),
        };
        // What a row shares with the one above it is not said again.
        let left = if self.written { "| | | " } else { left };
        let row = format!("{left}| {rival} | {} | {ratio} |", shown(theirs));
        self.rows.push(row);
        self.written = true;
    }

    /// A line below the table.
    pub fn note(&mut self, note: String) {
        self.notes.push(note);
    }
}

fn shown(timed: &Timed) -> String {
    match timed {
        Ok(figure) => figure.to_string(),
        Err(why) => why.clone(),
    }
}

impl fmt::Display for Report {
    fn fmt(&self, f: &mut fmt::Formatter) -> fmt::Result {
        writeln!(f, "| call | input | takes | against | takes | ratio |")?;
        writeln!(f, "|---|---|---|---|---|---|")?;
        for row in &self.rows {
            writeln!(f, "{row}")?;
        }
        writeln!(f)?;
        for note in &self.notes {
            writeln!(f, "- {note}")?;
        }
        Ok(())
    }
}

#[cfg(test)]
mod tests {
    use super::*;

    #[test]
    fn figures_have_three_digits() {
        let shown = |nanoseconds| Figure::whole(Duration::from_nanos(nanoseconds)).to_string();
        assert_eq!(shown(7), "7.00 ns");
        assert_eq!(shown(35_210_000), "35.2 ms");
        assert_eq!(shown(4_000_000_000), "4.00 s");
        let byte = Figure::each(Duration::from_micros(65), 65_536, " a byte");
        assert_eq!(byte.to_string(), "0.992 ns a byte");
        assert_eq!(short(0.01234), "0.0123");
        assert_eq!(short(0.0), "0.00");
        assert_eq!(grouped(16_777_216), "16,777,216");
        assert_eq!(grouped(999), "999");
    }

    #[test]
    fn rows_of_one_measure_share_their_left_cells() {
        let time = |ms| Ok(Figure::whole(Duration::from_millis(ms)));
        let mut report = Report::default();
        report.measure("check", "an image", &time(1));
        report.against("a", &time(2));
        report.against("b", &Err("missing".to_string()));
        assert_eq!(
            report.rows,
            [
                "| check | an image | 1.00 ms | a | 2.00 ms | 0.500 |",
                "| | | | b | missing | - |"
            ]
        );
    }
}
