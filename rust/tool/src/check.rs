//! `check`: each image and each disk of several files by itself. Its answer is a line for each file, whatever is wrong with it.

use crate::checked::checked;
use crate::described::Opened;
use crate::failure::{Failure, Status};
use crate::hint::hinted;
use crate::judged::Judged;
use crate::layer::Layer;
use crate::names::{name, put_name};
use crate::progress::Progress;
use crate::reports::{self, Report};
use crate::verdicts::Verdicts;
use anhkhovet::Disk;
use serde_json::{json, Value};
use std::path::{Path, PathBuf};

/// What is said of a file.
enum Verdict {
    Image(Judged<Disk>),
    Split(Verdicts),
}

fn one(path: &Path) -> Verdict {
    let judged = Opened::at(path).and_then(|opened| {
        let _progress = Progress::start(&format!("checking {}", name(path)), 0);
        match opened {
            Opened::Image(file) => Ok(Verdict::Image(judged(file))),
            Opened::Descriptor(disk) => Verdicts::of(disk).map(Verdict::Split),
        }
    });
    judged.unwrap_or_else(|failure| Verdict::Image(failure.into()))
}

/// The check of an image, with what could be done where it is refused.
fn judged(file: Layer) -> Judged<Disk> {
    let mut judged = Judged::of(file, checked);
    judged.verdict = judged.verdict.map_err(hinted);
    judged
}

impl Report for Verdict {
    fn status(&self) -> Option<Status> {
        match self {
            Verdict::Image(judged) => judged.status(),
            Verdict::Split(verdicts) => verdicts.status(),
        }
    }

    fn lines(&self, path: &Path) -> String {
        match self {
            Verdict::Image(judged) => judged.line(|disk| {
                let (capacity, size) = (disk.capacity, disk.grain_size);
                format!(
                    "{}: accepted, capacity {capacity} sectors, grain size {size}",
                    name(path)
                )
            }),
            Verdict::Split(verdicts) => verdicts.lines(),
        }
    }

    fn object(&self, path: &Path) -> Value {
        let mut object = match self {
            Verdict::Image(judged) => judged
                .object(|disk| json!({ "capacity": disk.capacity, "grain_size": disk.grain_size })),
            Verdict::Split(verdicts) => verdicts.object(),
        };
        put_name(&mut object, "file", path);
        object
    }
}

pub fn check(paths: &[PathBuf], json: bool) -> Result<(), Failure> {
    reports::each(paths, json, one)
}
