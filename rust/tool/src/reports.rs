//! Answers that are given file by file, whatever is wrong with one of them.

use crate::failure::{Failure, Status};
use crate::print;
use serde_json::Value;
use std::path::{Path, PathBuf};

/// What is said of one file.
pub trait Report {
    /// Nothing where all is well.
    fn status(&self) -> Option<Status>;
    /// Whole lines.
    fn lines(&self, path: &Path) -> String;
    fn object(&self, path: &Path) -> Value;
}

/// Tells each file's report, in order, as lines or as the members of a list. The worst status counts.
pub fn each<R: Report>(
    paths: &[PathBuf],
    json: bool,
    one: impl Fn(&Path) -> R,
) -> Result<(), Failure> {
    let mut worst = None;
    let mut each = |tell: &mut dyn FnMut(&Path, &R) -> Result<(), Failure>| {
        paths.iter().try_for_each(|path| {
            let report = one(path);
            worst = worst.max(report.status());
            tell(path, &report)
        })
    };
    if json {
        print::members(|all| {
            all.list("files", |take| {
                each(&mut |path, report| take(&report.object(path)))
            })
        })?;
    } else {
        each(&mut |path, report| print::text(&report.lines(path)))?;
    }
    worst.map_or(Ok(()), |status| Err(Failure::Told(status)))
}
