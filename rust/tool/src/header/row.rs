//! A part of a header that is told in a line, and what rules ask of it.

use crate::names::{hex, spaced};
use serde_json::{json, Value};

/// What a rule asks of a part, and whether that holds.
pub struct Asked {
    /// The refusal's number.
    pub number: u64,
    pub met: bool,
    pub words: &'static str,
}

pub struct Row {
    /// The part's first byte in the file; nothing for the file's length.
    pub at: Option<u64>,
    /// As they stand in the file.
    pub bytes: Vec<u8>,
    pub name: &'static str,
    /// What the bytes count; nothing where they are no number.
    pub number: Option<u64>,
    pub meaning: String,
    pub asked: Vec<Asked>,
    /// Why no rule asks anything of it, or who else does.
    pub note: &'static str,
}

/// As many bytes are shown in words, before what is left out.
const SHOWN: usize = 8;

/// What rules ask stands at one edge, if no part is longer.
const LONGEST: usize = 96;

const TITLES: [&str; 4] = ["byte", "size", "bytes", "field: what it says"];
const RULE: &str = "rule, by its number";

impl Asked {
    fn words(&self) -> String {
        let verdict = if self.met { "ok" } else { "BREAKS" };
        format!("{verdict} {}: {}", self.number, self.words)
    }

    fn object(&self) -> Value {
        json!({ "number": self.number, "met": self.met, "words": self.words })
    }
}

impl Row {
    /// The numbers of the rules that are broken here.
    pub fn broken(&self) -> impl Iterator<Item = u64> + '_ {
        let broken = self.asked.iter().filter(|asked| !asked.met);
        broken.map(|asked| asked.number)
    }

    /// The bytes as they stand, with spaces between.
    fn shown(&self) -> String {
        let shown = &self.bytes[..SHOWN.min(self.bytes.len())];
        let more = if self.bytes.len() > SHOWN { " .." } else { "" };
        spaced(shown) + more
    }

    /// Its byte, size, bytes and what they say.
    fn part(&self) -> [String; 4] {
        let (at, size) = match self.at {
            Some(at) => (at.to_string(), self.bytes.len().to_string()),
            None => Default::default(),
        };
        let said = format!("{}: {}", self.name, self.meaning);
        [at, size, self.shown(), said]
    }

    /// What is broken comes first, beside the field.
    fn rules(&self) -> Vec<String> {
        let mut asked: Vec<&Asked> = self.asked.iter().collect();
        asked.sort_by_key(|asked| asked.met);
        let asked = asked.into_iter().map(Asked::words);
        let note = Some(self.note).filter(|note| !note.is_empty());
        asked.chain(note.map(str::to_string)).collect()
    }

    pub fn object(&self) -> Value {
        json!({
            "offset": self.at,
            "size": self.bytes.len(),
            "bytes": hex(&self.bytes),
            "name": self.name,
            "number": self.number,
            "meaning": self.meaning,
            "rules": self.asked.iter().map(Asked::object).collect::<Vec<_>>(),
        })
    }
}

/// A table: a line for each part, and one more for each further rule.
pub fn table<'a>(rows: impl Iterator<Item = &'a Row>) -> String {
    let titles = (TITLES.map(str::to_string), vec![RULE.to_string()]);
    let rows = rows.map(|row| (row.part(), row.rules()));
    let rows: Vec<([String; 4], Vec<String>)> = std::iter::once(titles).chain(rows).collect();
    let width = |column: usize| rows.iter().map(|(part, _)| part[column].len()).max();
    let widths = [0, 1, 2].map(|column| width(column).unwrap_or(0));
    let mut parts = Vec::new();
    for ([at, size, bytes, said], _) in &rows {
        let [first, second, third] = widths;
        parts.push(format!(
            "{at:>first$}  {size:>second$}  {bytes:<third$}  {said}"
        ));
    }
    let longest = parts
        .iter()
        .map(String::len)
        .max()
        .unwrap_or(0)
        .min(LONGEST);
    let mut lines = String::new();
    for (part, (_, rules)) in parts.iter().zip(&rows) {
        for (number, rule) in rules.iter().enumerate() {
            let before = if number == 0 { part.as_str() } else { "" };
            lines += &format!("{before:<longest$}  {rule}\n");
        }
    }
    lines
}
