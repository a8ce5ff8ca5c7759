//! What is said of one image, and whether its disk was still open: a copy of a running machine's disk is often refused for it.

use crate::failure::{self, Failure, Status};
use crate::files::Layers;
use crate::layer::Layer;
use crate::still_open::{self, still_open, STILL_OPEN};
use anhkhovet::Refusal;
use serde_json::{json, Value};

pub struct Judged<T> {
    pub verdict: Result<T, Failure>,
    /// Nothing where the header is refused, or the file was not read well.
    pub still_open: Option<bool>,
}

impl<T> Judged<T> {
    /// Of a file that was not read well nothing else is told.
    pub fn new(verdict: Result<T, Failure>, still_open: Option<bool>) -> Judged<T> {
        let read = match &verdict {
            Ok(_) => true,
            Err(failure) => failure.status() == Status::Refused,
        };
        Judged {
            verdict,
            still_open: still_open.filter(|_| read),
        }
    }

    /// The answer of a call that judges all grains of an image.
    pub fn of(file: Layer, call: impl Fn(&[u8]) -> Result<T, Refusal>) -> Judged<T> {
        Judged::by(file, |image| image.ask(0, call), |_, _| String::new())
    }

    /// An answer that may need more of the file, and what a refusal leaves open, by own bytes.
    pub fn by(
        file: Layer,
        asked: impl FnOnce(&mut Layers) -> Result<Result<T, Refusal>, Failure>,
        detail: impl FnOnce(&[u8], Refusal) -> String,
    ) -> Judged<T> {
        let mut open = None;
        let verdict = Layers::of(vec![file]).and_then(|mut layers| {
            let answer = asked(&mut layers)?;
            open = still_open(layers.bytes(0));
            layers.same()?;
            answer.map_err(|why| {
                let mut refusal = failure::Refusal::new(why, Some(layers.path(0)));
                refusal.detail = detail(layers.bytes(0), why);
                Failure::Refused(refusal)
            })
        });
        Judged::new(verdict, open)
    }

    pub fn status(&self) -> Option<Status> {
        self.verdict.as_ref().err().map(Failure::status)
    }

    /// The verdict in words, which a failure has.
    pub fn line(&self, accepted: impl FnOnce(&T) -> String) -> String {
        let verdict = match &self.verdict {
            Ok(answer) => accepted(answer),
            Err(failure) => failure.to_string(),
        };
        verdict + self.remark() + "\n"
    }

    /// The members `accepted`, `refused` or `failed`, and `still_open`.
    pub fn object(&self, accepted: impl FnOnce(&T) -> Value) -> Value {
        let mut object = match &self.verdict {
            Ok(answer) => json!({ "accepted": accepted(answer) }),
            Err(failure) => failure.json(),
        };
        still_open::put(&mut object, self.still_open);
        object
    }

    /// What stands after the verdict in words; 27 says it already.
    pub fn remark(&self) -> &'static str {
        match &self.verdict {
            Err(Failure::Refused(refusal)) if refusal.why.number == STILL_OPEN => "",
            _ => still_open::remark(self.still_open),
        }
    }
}

impl<T> From<Failure> for Judged<T> {
    fn from(failure: Failure) -> Judged<T> {
        Judged::new(Err(failure), None)
    }
}
