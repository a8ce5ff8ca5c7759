//! Generated descriptors: sound ones in many spellings, and damage at each edge of the grammar.

mod damage;
mod edges;
mod lines;

pub use damage::damage;
pub use lines::{extent_of, sound, with_extents};

/// A text as its lines, without their ends, and what follows the last one.
#[derive(Clone)]
pub struct Text {
    pub lines: Vec<Vec<u8>>,
    /// Zero bytes, and perhaps more.
    pub tail: Vec<u8>,
    /// Whether the last line has an end.
    pub ended: bool,
}

impl Text {
    pub fn bytes(&self) -> Vec<u8> {
        let mut bytes = self.lines.join(&b'\n');
        if self.ended {
            bytes.push(b'\n');
        }
        bytes.extend(&self.tail);
        bytes
    }
}
