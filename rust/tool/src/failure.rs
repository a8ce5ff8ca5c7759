//! Why a command gave no answer, and how that is told.

use crate::names::{name, put_name};
use serde_json::{json, Value};
use std::fmt;
use std::io;
use std::path::{Path, PathBuf};

/// A refusal by document 01's rules. Without a file it concerns all that were handed in.
#[derive(Debug)]
pub struct Refusal {
    pub why: anhkhovet::Refusal,
    pub file: Option<PathBuf>,
    /// What the sentence leaves open, or nothing.
    pub detail: String,
}

#[derive(Debug)]
pub enum Failure {
    Refused(Refusal),
    /// The file is well, and has not what was asked for: the file and why.
    Lacking(PathBuf, &'static str),
    /// The file is no child of the layer below it, and that was asked for: the file and why.
    Unrelated(PathBuf, String),
    /// The words were wrong, as what they name shows: the file and why.
    Misused(PathBuf, &'static str),
    /// The system refused something: the file, what was tried, and its word.
    System(PathBuf, &'static str, io::Error),
    /// The tool itself won't: the file and why.
    Unfit(PathBuf, String),
    /// An extent of a disk of several files: the descriptor, the extent's number, and what is wrong with it.
    Extent(PathBuf, u64, Box<Failure>),
    /// Standard output is gone.
    Print(io::Error),
    /// All was told before.
    Told(Status),
}

/// How the program ends where it does not end well. Where several files fail, the greatest counts.
#[derive(Clone, Copy, Debug, PartialEq, Eq, PartialOrd, Ord)]
pub enum Status {
    /// By document 01's rules, or since the file has not what was asked for.
    Refused = 1,
    Misused = 2,
    /// A list that does not hold.
    Differs = 3,
    /// A file cannot be read or written, or changed.
    Failed = 4,
}

impl Refusal {
    pub fn new(why: anhkhovet::Refusal, file: Option<&Path>) -> Refusal {
        Refusal {
            why,
            file: file.map(Path::to_path_buf),
            detail: String::new(),
        }
    }

    fn reason(&self) -> String {
        let mut reason = self.why.to_string();
        if !self.detail.is_empty() {
            reason += &format!(" ({})", self.detail);
        }
        reason
    }

    pub fn json(&self) -> Value {
        let mut object = json!({
            "number": self.why.number,
            "place": self.why.place,
            "sentence": self.why.sentence(),
        });
        if let Some(file) = &self.file {
            put_name(&mut object, "file", file);
        }
        if !self.detail.is_empty() {
            object["detail"] = json!(self.detail);
        }
        object
    }
}

impl Failure {
    /// One file's refusal.
    pub fn refused(file: &Path) -> impl FnOnce(anhkhovet::Refusal) -> Failure + '_ {
        move |why| Failure::Refused(Refusal::new(why, Some(file)))
    }

    pub fn system(file: &Path, tried: &'static str) -> impl FnOnce(io::Error) -> Failure {
        let file = file.to_path_buf();
        move |error| Failure::System(file, tried, error)
    }

    pub fn unfit(file: &Path, why: impl Into<String>) -> Failure {
        Failure::Unfit(file.to_path_buf(), why.into())
    }

    /// The file was not the same all the while.
    pub fn changed(file: &Path) -> Failure {
        Failure::unfit(
            file,
            "the file changed while it was read, so there is no answer",
        )
    }

    pub fn status(&self) -> Status {
        match self {
            Failure::Refused(_) | Failure::Lacking(..) | Failure::Unrelated(..) => Status::Refused,
            Failure::Misused(..) => Status::Misused,
            Failure::System(..) | Failure::Unfit(..) | Failure::Print(_) => Status::Failed,
            Failure::Extent(_, _, failure) => failure.status(),
            Failure::Told(status) => *status,
        }
    }

    /// What is wrong with an extent itself.
    pub fn of_extent(&self) -> &Failure {
        match self {
            Failure::Extent(_, _, failure) => failure,
            failure => failure,
        }
    }

    /// The one file that it is about.
    fn file(&self) -> Option<&Path> {
        match self {
            Failure::Refused(refusal) => refusal.file.as_deref(),
            Failure::System(file, ..) | Failure::Unfit(file, _) => Some(file),
            Failure::Unrelated(file, _) => Some(file),
            Failure::Lacking(file, _) | Failure::Misused(file, _) => Some(file),
            Failure::Extent(descriptor, ..) => Some(descriptor),
            Failure::Print(_) | Failure::Told(_) => None,
        }
    }

    /// The same in words, without the file's name.
    pub fn reason(&self) -> String {
        match self {
            Failure::Refused(refusal) => refusal.reason(),
            Failure::System(_, tried, error) => format!("{tried}: {error}"),
            Failure::Lacking(_, why) | Failure::Misused(_, why) => why.to_string(),
            Failure::Unfit(_, why) | Failure::Unrelated(_, why) => why.clone(),
            Failure::Extent(_, extent, failure) => format!("extent {extent}: {failure}"),
            Failure::Print(error) => format!("standard output: {error}"),
            Failure::Told(_) => String::new(),
        }
    }

    /// One object: `refused` by document 01's rules, `failed` for all else.
    pub fn json(&self) -> Value {
        match self {
            Failure::Refused(refusal) => json!({ "refused": refusal.json() }),
            Failure::Extent(_, extent, failure) => {
                let mut object = failure.json();
                match object.get_mut("refused") {
                    Some(refused) => refused["extent"] = json!(extent),
                    None => object["failed"] = json!(self.to_string()),
                }
                object
            }
            other => json!({ "failed": other.to_string() }),
        }
    }
}

impl fmt::Display for Failure {
    fn fmt(&self, to: &mut fmt::Formatter) -> fmt::Result {
        if let Some(file) = self.file() {
            write!(to, "{}: ", name(file))?;
        }
        to.write_str(&self.reason())
    }
}
