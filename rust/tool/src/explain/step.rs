//! A step of the way to a sector: bytes as they stand in the file, and what follows from them.

use crate::names::{hex, spaced};
use crate::start::number;
use serde_json::{json, Value};

/// A number as its bytes stand in the file.
pub struct Standing {
    /// Its first byte.
    at: u64,
    bytes: Vec<u8>,
    pub number: u64,
}

impl Standing {
    /// Of own bytes: those that the library was asked on, so that the two never disagree.
    pub fn of(own: &[u8], at: u64, length: usize) -> Standing {
        let start = usize::try_from(at).unwrap_or(usize::MAX);
        let bytes = own.get(start..start.saturating_add(length));
        Standing {
            at,
            bytes: bytes.unwrap_or(&[]).to_vec(),
            number: number(own, at, length),
        }
    }

    /// The bytes with their place, which is a sum or the number that it comes to.
    pub fn placed(&self, sum: &str) -> String {
        let (at, bytes) = (self.at, spaced(&self.bytes));
        let place = match sum {
            "" => at.to_string(),
            sum => format!("{sum} = {at}"),
        };
        format!("at byte {place} stand {bytes}")
    }

    /// The same with the number that they are.
    pub fn words(&self, sum: &str) -> String {
        format!("{} = {}", self.placed(sum), self.number)
    }

    fn object(&self) -> Value {
        json!({
            "offset": self.at,
            "bytes": hex(&self.bytes),
            "number": self.number,
        })
    }
}

pub struct Step {
    pub name: &'static str,
    pub words: String,
    /// What it goes by, if it goes by bytes of the file.
    pub stand: Vec<Standing>,
}

impl Step {
    /// A step by one number.
    pub fn by(name: &'static str, words: String, standing: Standing) -> Step {
        Step {
            name,
            words,
            stand: vec![standing],
        }
    }

    /// A step that follows from those before it.
    pub fn of(name: &'static str, words: String) -> Step {
        Step {
            name,
            words,
            stand: Vec::new(),
        }
    }

    pub fn line(&self) -> String {
        format!("{}: {}\n", self.name, self.words)
    }

    pub fn object(&self) -> Value {
        json!({
            "name": self.name,
            "words": self.words,
            "stand": self.stand.iter().map(Standing::object).collect::<Vec<_>>(),
        })
    }
}
