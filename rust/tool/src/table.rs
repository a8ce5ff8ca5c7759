//! The survey's table for people. Its columns are as wide as what stands in them.

use crate::failure::Failure;
use crate::names::name;
use crate::print::Printer;
use crate::survey::{Row, Totals};
use anhkhovet::{Counts, Refusal};
use std::path::Path;

/// Name, MiB, stored, zero, absent, packed, verdict.
const COLUMNS: usize = 7;
const LAST: usize = COLUMNS - 1;

/// A longer name moves its own line alone.
const LONGEST_NAME: usize = 48;

const SECTORS_A_MIB: u64 = 2048;

type Line = [String; COLUMNS];

pub struct Table(Vec<Line>);

impl Table {
    pub fn new() -> Table {
        let titles = [
            "name", "MiB", "stored", "zero", "absent", "packed", "verdict",
        ];
        Table(vec![titles.map(String::from)])
    }

    pub fn image(&mut self, path: &Path, row: &Row) {
        let name = cell(path);
        let mut line = match &row.verdict {
            Ok((disk, counts)) => full(name, disk.capacity, counts, "accepted".to_string()),
            Err(failure @ Failure::Refused(_)) => empty(name, failure.reason()),
            Err(failure) => empty(name, format!("not read: {}", failure.reason())),
        };
        line[LAST] += row.remark();
        self.0.push(line);
    }

    /// The rows, the totals of accepted images, and how many images each number refuses.
    pub fn print(mut self, totals: &Totals) -> Result<(), Failure> {
        let verdict = format!("{} of {} accepted", totals.accepted, totals.files);
        let (name, counts) = ("total".to_string(), &totals.counts);
        self.0.push(full(name, totals.capacity, counts, verdict));
        let widths = self.widths();
        let mut printer = Printer::new();
        for line in &self.0 {
            printer.text(&laid_out(line, &widths))?;
        }
        for (&number, &images) in &totals.tally {
            let sentence = Refusal { number, place: 0 }.sentence();
            let images = counted(images, "image");
            printer.text(&format!("refused {number}, {images}: {sentence}\n"))?;
        }
        if totals.unread > 0 {
            printer.text(&format!("not read: {}\n", counted(totals.unread, "file")))?;
        }
        printer.done()
    }

    fn widths(&self) -> [usize; COLUMNS] {
        let mut widths = [0; COLUMNS];
        for line in &self.0 {
            for (width, cell) in widths.iter_mut().zip(line) {
                *width = (*width).max(cell.chars().count());
            }
        }
        widths[0] = widths[0].min(LONGEST_NAME);
        widths
    }
}

/// A blank at the end of a name would not be seen.
fn cell(path: &Path) -> String {
    let shown = name(path);
    match shown.strip_suffix(' ') {
        Some(start) => start.to_string() + "\\x20",
        None => shown,
    }
}

/// Words stand at the left of their column and numbers at its right.
fn laid_out(line: &Line, widths: &[usize; COLUMNS]) -> String {
    let mut text = format!("{:<width$}", line[0], width = widths[0]);
    for (cell, &width) in line[1..LAST].iter().zip(&widths[1..]) {
        text += &format!("  {cell:>width$}");
    }
    text + "  " + &line[LAST] + "\n"
}

fn full(name: String, capacity: u64, counts: &Counts, verdict: String) -> Line {
    let all = counts.grains();
    let share = |grains: u64| format!("{grains} {:>6}", percent(grains, all));
    [
        name,
        mebibytes(capacity),
        share(counts.stored),
        share(counts.zero),
        share(counts.absent),
        share(counts.packed),
        verdict,
    ]
}

fn empty(name: String, verdict: String) -> Line {
    let mut line = [(); COLUMNS].map(|()| "-".to_string());
    line[0] = name;
    line[LAST] = verdict;
    line
}

/// Rounded to tenths: 0.0% is none and 100.0% all.
fn percent(part: u64, all: u64) -> String {
    match tenths(part, 100, all) {
        _ if all == 0 => "-".to_string(),
        1000 if part < all => ">99.9%".to_string(),
        share => written(part, share) + "%",
    }
}

fn mebibytes(sectors: u64) -> String {
    written(sectors, tenths(sectors, 1, SECTORS_A_MIB))
}

/// `number` times `factor` by `divisor`, in tenths, rounded; of 0 by 0 nothing.
fn tenths(number: u64, factor: u64, divisor: u64) -> u128 {
    let divisor = u128::from(divisor.max(1));
    (u128::from(number) * u128::from(factor) * 10 + divisor / 2) / divisor
}

/// What is there does not read as nothing.
fn written(number: u64, tenths: u128) -> String {
    if number > 0 && tenths == 0 {
        return "<0.1".to_string();
    }
    format!("{}.{}", tenths / 10, tenths % 10)
}

fn counted(count: u64, what: &str) -> String {
    let plural = if count == 1 { "" } else { "s" };
    format!("{count} {what}{plural}")
}
