//! `profile`: whether images have the one form of what is published, each by itself, and else where they differ from it first.

use crate::failure::{Failure, Status};
use crate::files::Layers;
use crate::front::Front;
use crate::hint::hinted;
use crate::judged::Judged;
use crate::layer::Layer;
use crate::names::{name, put_name};
use crate::progress::Progress;
use crate::reports::{self, Report};
use anhkhovet::{Disk, Refusal};
use serde_json::{json, Value};
use std::path::{Path, PathBuf};

/// The number whose place is a byte.
const NOT_NORMAL: u64 = 42;

struct Profile(Judged<Disk>);

/// The answer on own bytes. What decides is the frame, and the gap behind its tables: a grain whose entry is the normal form's
/// stands where it does there, and is its own bytes.
fn asked(image: &mut Layers) -> Result<Result<Disk, Refusal>, Failure> {
    if let Ok(header) = anhkhovet::header(image.bytes(0)) {
        image.copy(0, Front::of(header.disk).gap())?;
    }
    image.ask(0, anhkhovet::profile)
}

/// What stands where an image differs from its normal form.
fn detail(image: &[u8], why: Refusal) -> String {
    match anhkhovet::header(image) {
        Ok(header) if why.number == NOT_NORMAL => {
            let part = Front::of(header.disk).part(why.place, image.len() as u64);
            format!("what stands there: {part}")
        }
        _ => String::new(),
    }
}

fn one(path: &Path) -> Profile {
    let _progress = Progress::start(&format!("checking {}", name(path)), 0);
    let file = Layer::open(path);
    let mut judged = file.map_or_else(Judged::from, |file| Judged::by(file, asked, detail));
    judged.verdict = judged.verdict.map_err(hinted);
    Profile(judged)
}

impl Report for Profile {
    fn status(&self) -> Option<Status> {
        self.0.status()
    }

    fn lines(&self, path: &Path) -> String {
        self.0.line(|disk| {
            let capacity = disk.capacity;
            format!(
                "{}: meets the profile, capacity {capacity} sectors",
                name(path)
            )
        })
    }

    fn object(&self, path: &Path) -> Value {
        let accepted =
            |disk: &Disk| json!({ "capacity": disk.capacity, "grain_size": disk.grain_size });
        let mut object = self.0.object(accepted);
        put_name(&mut object, "file", path);
        object
    }
}

pub fn profile(paths: &[PathBuf], json: bool) -> Result<(), Failure> {
    reports::each(paths, json, one)
}
