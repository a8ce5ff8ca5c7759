//! What is told: on standard output whole, or the command fails; what standard error does not take is lost.

use crate::failure::Failure;
use crate::guard;
use crate::json::{self, Object};
use crate::streams;
use serde_json::Value;
use std::io::{self, Write};

/// As much is put together before it is sent.
const BATCH: usize = 1 << 16;

/// A writer for long answers; `done` must be its end. What is not sent by then is dropped.
pub struct Printer(Vec<u8>);

impl Printer {
    pub fn new() -> Printer {
        Printer(Vec::with_capacity(BATCH))
    }

    pub fn text(&mut self, text: &str) -> Result<(), Failure> {
        self.bytes(text.as_bytes())
    }

    pub fn bytes(&mut self, bytes: &[u8]) -> Result<(), Failure> {
        self.write_all(bytes).map_err(Failure::Print)
    }

    pub fn done(mut self) -> Result<(), Failure> {
        self.flush().map_err(Failure::Print)
    }
}

impl Write for Printer {
    fn write(&mut self, bytes: &[u8]) -> io::Result<usize> {
        self.0.extend_from_slice(bytes);
        if self.0.len() >= BATCH {
            self.flush()?;
        }
        Ok(bytes.len())
    }

    fn flush(&mut self) -> io::Result<()> {
        if self.0.is_empty() {
            return Ok(());
        }
        guard::owe_object(false);
        let sent = streams::output().and_then(|mut output| output.write_all(&self.0));
        self.0.clear();
        sent
    }
}

/// A short answer: one or more whole lines.
pub fn text(text: &str) -> Result<(), Failure> {
    bytes(text.as_bytes())
}

/// The same as bytes.
pub fn bytes(bytes: &[u8]) -> Result<(), Failure> {
    let mut printer = Printer::new();
    printer.bytes(bytes)?;
    printer.done()
}

/// One object, on a line of its own.
pub fn object(object: &Value) -> Result<(), Failure> {
    let mut printer = Printer::new();
    json::value(&mut printer, object)?;
    printer.text("\n")?;
    printer.done()
}

/// One object, on a line of its own, told member by member.
pub fn members(tell: impl FnOnce(&mut Object) -> Result<(), Failure>) -> Result<(), Failure> {
    let mut printer = Printer::new();
    json::object(&mut printer, tell)?;
    printer.text("\n")?;
    printer.done()
}

/// An answer as lines or as one object.
pub fn answer(
    json: bool,
    lines: impl FnOnce() -> String,
    value: impl FnOnce() -> Value,
) -> Result<(), Failure> {
    if json {
        object(&value())
    } else {
        text(&lines())
    }
}

/// A line on standard error.
pub fn note(line: &str) {
    error(&format!("anhkhovet: {line}\n"));
}

/// Whole lines on standard error.
pub fn error(text: &str) {
    let _ = io::stderr().write_all(text.as_bytes());
}
