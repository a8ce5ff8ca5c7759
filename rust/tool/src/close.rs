//! `close`: what a stream that broke off has kept, written with the tail that closes it.

use crate::cli::Target;
use crate::copied;
use crate::failure::Failure;
use crate::names::{name, put_name};
use crate::output::Output;
use crate::print;
use crate::progress::Progress;
use crate::start::{Kept, Start};
use crate::still_open::OpenImages;
use crate::writeback::Writeback;
use anhkhovet::SECTOR;
use serde_json::{json, Value};
use std::ops::Range;
use std::path::{Path, PathBuf};

/// A stream has no grains of zeros, so that an absent one says little.
const LEFT_OUT: &str =
    "a stream leaves out grains of zeros, so one that is absent there is not missing";

/// Writes what is kept and the tail, if the file is the same as before. The length of both.
fn write(kept: &Kept, output: Output) -> Result<u64, Failure> {
    let (file, end) = (kept.file(), kept.end());
    let length = end + kept.closed.length;
    let parts: Vec<Range<u64>> = file.data(0..end).collect();
    let tail = std::iter::once(end..length);
    let needed: Vec<Range<u64>> = parts.iter().cloned().chain(tail).collect();
    output.reserve_parts(length, &needed)?;
    let writeback = Writeback::of(output.file()?);
    copied::copy(file, &parts, &output)?;
    for (at, bytes) in kept.deciding() {
        output.settle(at, bytes)?;
    }
    output.put(end, kept.tail())?;
    file.same()?;
    drop(writeback);
    output.finish()?;
    Ok(length)
}

pub fn close(path: &Path, target: &Target, json: bool) -> Result<(), Failure> {
    let progress = Progress::start("closing", 0);
    let start = Start::open(path)?;
    let output = Output::create(target, &[path.to_path_buf()])?;
    let kept = start.close()?;
    drop(progress);
    let open = kept.header.still_open();
    let open = open.then(|| (name(path), PathBuf::from(path)));
    let open = OpenImages::of(open.into_iter());
    open.note();
    let length = write(&kept, output)?;
    print::answer(
        json,
        || lines(&kept) + &format!("{}: written, {length} bytes\n", name(&target.path)),
        || {
            let mut object = object(&kept);
            for (key, value) in open.members() {
                object[key] = value;
            }
            object["length"] = json!(length);
            put_name(&mut object, "output", &target.path);
            object
        },
    )
}

/// What is kept, and what of the disk that is.
fn lines(kept: &Kept) -> String {
    let sectors = kept.closed.sectors;
    let all = kept.file().length() / SECTOR;
    let grains = match kept.closed.grains {
        0 => "no grain is kept".to_string(),
        1 => "1 grain is kept".to_string(),
        grains => format!("{grains} grains are kept"),
    };
    let file = name(&kept.file().path);
    let first = format!("{file}: {grains}, with the first {sectors} of its {all} sectors\n");
    first + &covered(kept.covered, kept.header.disk.capacity)
}

/// Which virtual sectors are there, and which may be missing.
fn covered(covered: u64, capacity: u64) -> String {
    let mut lines = String::new();
    if covered > 0 {
        let last = covered - 1;
        lines += &format!("virtual sectors 0 to {last} are there: {LEFT_OUT}\n");
    }
    if covered < capacity {
        let last = capacity - 1;
        lines += &format!(
            "virtual sectors {covered} to {last} are absent: whatever the stream had of them is missing\n"
        );
    }
    lines
}

fn object(kept: &Kept) -> Value {
    let mut object = json!({
        "grains": kept.closed.grains,
        "sectors": kept.closed.sectors,
        "of_sectors": kept.file().length() / SECTOR,
        "virtual_sectors": kept.covered,
        "capacity": kept.header.disk.capacity,
        "grain_size": kept.header.disk.grain_size,
    });
    put_name(&mut object, "file", &kept.file().path);
    object
}
