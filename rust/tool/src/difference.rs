//! Lines of a list that do not hold, and how they are told.

use serde_json::{json, Value};

/// Why a line does not hold.
pub enum Fault {
    Form,
    Text,
    /// What the line names, and what is compared.
    Unit(&'static str, &'static str),
    /// The disk's last sector.
    Past(u64),
    /// The first sector of the grain that it is inside of.
    Inside(u64),
    Twice,
    /// The first sector of the grain, which is packed.
    Packed(u64),
    Open,
    /// How many bytes the list has a digest of, and how many there are in the image.
    Size(u64, u64),
    /// The list's digest and the image's.
    Digest(String, String),
}

/// A line that does not hold: its number, and its sector where it has one.
pub struct Difference {
    pub line: u64,
    pub sector: Option<u64>,
    pub fault: Fault,
}

impl Fault {
    fn word(&self) -> &'static str {
        match self {
            Fault::Form => "form",
            Fault::Text => "text",
            Fault::Unit(..) => "unit",
            Fault::Past(_) => "past",
            Fault::Inside(_) => "inside",
            Fault::Twice => "twice",
            Fault::Packed(_) => "packed",
            Fault::Open => "open",
            Fault::Size(..) => "size",
            Fault::Digest(..) => "digest",
        }
    }

    fn sentence(&self) -> String {
        match self {
            Fault::Form => "is not of the form: sector, digest".into(),
            Fault::Unit(named, compared) => format!("names {named}, and here {compared} compared"),
            Fault::Text => "is no line of text, so this is no list, and the rest is not looked at".into(),
            Fault::Past(last) => format!("is past the end of the disk, whose last is {last}"),
            Fault::Inside(first) => format!("is not the first of its grain, which is {first}"),
            Fault::Twice => "is named by a line before".into(),
            Fault::Packed(first) => format!(
                "is packed in the image, in the grain from sector {first} on, and the list has a digest of open bytes"
            ),
            Fault::Open => "is not packed in the image, and the list says that it is".into(),
            Fault::Size(listed, found) => {
                format!("has {found} bytes in the image, and the list says {listed}")
            }
            Fault::Digest(listed, found) => {
                format!("differs: the list has {listed}, the image {found}")
            }
        }
    }
}

impl Difference {
    pub fn text(&self) -> String {
        let sentence = self.fault.sentence();
        match self.sector {
            Some(sector) => format!("line {}: sector {sector} {sentence}", self.line),
            None => format!("line {} {sentence}", self.line),
        }
    }

    pub fn object(&self) -> Value {
        let mut object = json!({
            "kind": self.fault.word(),
            "line": self.line,
            "sentence": self.text(),
        });
        if let Some(sector) = self.sector {
            object["sector"] = json!(sector);
        }
        if let Fault::Digest(listed, found) = &self.fault {
            object["listed"] = json!(listed);
            object["found"] = json!(found);
        }
        object
    }
}
