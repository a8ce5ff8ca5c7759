//! What was reached: a count for each call and each answer or refusal that it gave.

use crate::answers;
use crate::places::part;
use crate::refusals::gives;
use std::fmt::{self, Write};

#[derive(Clone, Copy, Debug, PartialEq, Eq)]
pub enum Call {
    Check,
    CheckIn,
    Profile,
    Header,
    Lookup,
    Steps,
    Chain,
    Read,
    Frame,
    Survey,
    Mend,
    Normal,
    Collapse,
    ToKdmv,
    ToCowd,
    Close,
    Descriptor,
    Find,
    Split,
}

use Call::*;

const CALLS: [(Call, &str); 19] = [
    (Check, "check"),
    (CheckIn, "check_in"),
    (Profile, "profile"),
    (Header, "header"),
    (Lookup, "lookup"),
    (Steps, "steps"),
    (Chain, "chain"),
    (Read, "read"),
    (Frame, "frame"),
    (Survey, "survey"),
    (Mend, "mend"),
    (Normal, "normal"),
    (Collapse, "collapse"),
    (ToKdmv, "to_kdmv"),
    (ToCowd, "to_cowd"),
    (Close, "close"),
    (Descriptor, "descriptor"),
    (Find, "find"),
    (Split, "split"),
];

impl Call {
    /// All of them, in the table's order.
    pub fn all() -> Vec<Call> {
        CALLS.iter().map(|(call, _)| *call).collect()
    }
}

const NUMBERS: u64 = 48;

/// A row's count in each call's column.
type Counts = [u64; CALLS.len()];

pub struct Tally {
    refusals: Vec<Counts>,
    answers: Vec<Counts>,
    /// Refusals that no call, or not this call, can give.
    pub strange: u64,
    pub comparisons: u64,
    pub differences: u64,
    /// Which calls are compared.
    pub calls: Vec<Call>,
}

impl Tally {
    pub fn new(calls: Vec<Call>) -> Tally {
        Tally {
            refusals: vec![[0; CALLS.len()]; NUMBERS as usize],
            answers: vec![[0; CALLS.len()]; answers::all().count()],
            strange: 0,
            comparisons: 0,
            differences: 0,
            calls,
        }
    }

    pub fn refused(&mut self, call: Call, number: u64, place: u64) {
        if !gives(number, call) {
            self.strange += 1;
            return;
        }
        self.refusals[number as usize][call as usize] += 1;
        if number == 8 {
            self.answered(call, part(place));
        }
    }

    pub fn answered(&mut self, call: Call, answer: &str) {
        for (index, (name, calls)) in answers::all().enumerate() {
            if *name == answer && calls.contains(&call) {
                self.answers[index][call as usize] += 1;
                return;
            }
        }
        self.strange += 1;
    }

    /// Every row: its name, its counts, and which calls can give it.
    fn rows(&self) -> Vec<(String, Counts, Vec<Call>)> {
        let all = || self.calls.iter().copied();
        let mut rows = Vec::new();
        for number in 1..NUMBERS {
            let calls: Vec<Call> = all().filter(|call| gives(number, *call)).collect();
            rows.push((
                format!("refused {number}"),
                self.refusals[number as usize],
                calls,
            ));
        }
        for (index, (name, calls)) in answers::all().enumerate() {
            let calls = all().filter(|call| calls.contains(call)).collect();
            rows.push((name.to_string(), self.answers[index], calls));
        }
        rows.retain(|(_, _, calls)| !calls.is_empty());
        rows
    }

    /// Places of the table that can be reached and were not.
    pub fn empty(&self) -> Vec<String> {
        let mut empty = Vec::new();
        for (name, counts, calls) in self.rows() {
            for call in calls {
                if counts[call as usize] == 0 {
                    empty.push(format!("{name} by {}", CALLS[call as usize].1));
                }
            }
        }
        empty
    }

    pub fn good(&self) -> bool {
        self.differences == 0 && self.strange == 0 && self.empty().is_empty()
    }
}

impl fmt::Display for Tally {
    /// The table; a place that the call cannot give is left blank.
    fn fmt(&self, to: &mut fmt::Formatter) -> fmt::Result {
        write!(to, "{:<22}", "")?;
        for call in &self.calls {
            write!(to, "{:>11}", CALLS[*call as usize].1)?;
        }
        writeln!(to)?;
        for (name, counts, calls) in self.rows() {
            let mut line = format!("{name:<22}");
            for call in &self.calls {
                let cell = if calls.contains(call) {
                    counts[*call as usize].to_string()
                } else {
                    String::new()
                };
                write!(line, "{cell:>11}")?;
            }
            writeln!(to, "{}", line.trim_end())?;
        }
        for place in self.empty() {
            writeln!(to, "never reached: {place}")?;
        }
        if self.strange > 0 {
            writeln!(
                to,
                "{} answers that documents 01 and 02 do not know",
                self.strange
            )?;
        }
        write!(
            to,
            "{} comparisons, {} differences",
            self.comparisons, self.differences
        )
    }
}
