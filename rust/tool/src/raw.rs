//! `raw`: the disk as a raw file. What is zero or absent, and what is a hole in the files, is a hole in it.

use crate::cli::Target;
use crate::failure::Failure;
use crate::files::Files;
use crate::given::Given;
use crate::layer::Layer;
use crate::names::{name, put_name};
use crate::output::Output;
use crate::print;
use crate::progress::Progress;
use crate::runs::{runs, Run};
use crate::writeback::Writeback;
use anhkhovet::SECTOR;
use serde_json::{json, Value};
use std::fs::File;
use std::ops::Range;
use std::os::unix::io::AsRawFd;
use std::path::PathBuf;

/// As much is copied in one call.
const PART: u64 = 16 << 20;

/// Bytes that pass through the tool's own memory at once, where the system does not copy by itself.
const BUFFER: u64 = 1 << 20;

/// The parts of runs that are no holes in their files.
fn without_holes(files: &Files, runs: Vec<Run>) -> Vec<Run> {
    let parts = runs.into_iter().flat_map(|run| {
        let Run { at, file, bytes } = run;
        let start = bytes.start;
        files[file].data(bytes).map(move |bytes| Run {
            at: at + (bytes.start - start),
            file,
            bytes,
        })
    });
    parts.collect()
}

/// Where the runs stand on the disk, and those that meet as one.
fn places(runs: &[Run]) -> Vec<Range<u64>> {
    let mut places: Vec<Range<u64>> = Vec::new();
    for run in runs {
        match places.last_mut() {
            Some(place) if place.end == run.at => place.end = run.end(),
            _ => places.push(run.at..run.end()),
        }
    }
    places
}

/// Copies runs to their places in an output.
struct Copying<'a> {
    files: &'a Files,
    output: &'a Output,
    /// The output's file.
    to: File,
}

impl Copying<'_> {
    fn all(&self, runs: &[Run]) -> Result<(), Failure> {
        let progress = Progress::start("writing", runs.iter().map(Run::length).sum());
        let mut done = 0;
        for run in runs {
            self.run(run)?;
            done += run.length();
            progress.at(done);
        }
        Ok(())
    }

    fn run(&self, run: &Run) -> Result<(), Failure> {
        let file = &self.files[run.file];
        let mut copied = self.by_system(file, run);
        while copied < run.length() {
            let next = run.length().min(copied + BUFFER);
            let bytes = file.part(run.bytes.start + copied..run.bytes.start + next)?;
            self.output.put(run.at + copied, &bytes)?;
            copied = next;
        }
        Ok(())
    }

    /// How many bytes the system copied by itself, which is the quickest way: where it cannot, or not all, the rest is read and
    /// written, and what is wrong is told then.
    fn by_system(&self, file: &Layer, run: &Run) -> u64 {
        let [from, to] = [&file.file, &self.to].map(AsRawFd::as_raw_fd);
        let mut copied = 0;
        while copied < run.length() {
            let at = |start: u64| (start + copied) as libc::off64_t;
            let (mut source, mut target) = (at(run.bytes.start), at(run.at));
            let length = PART.min(run.length() - copied) as usize;
            // SAFETY: both files are open, and the two numbers are this call's own.
            let count =
                unsafe { libc::copy_file_range(from, &mut source, to, &mut target, length, 0) };
            if count <= 0 {
                break;
            }
            copied += count as u64;
        }
        copied
    }
}

pub fn raw(paths: &[PathBuf], target: &Target, json: bool) -> Result<(), Failure> {
    let mut given = Given::open(paths)?;
    let output = Output::create(target, &given.paths())?;
    let cut = given.grains()?;
    let files = given.files();
    let runs = without_holes(&files, runs(&mut given, &cut, 0..cut.capacity())?);
    let length = cut.capacity() * SECTOR;
    output.reserve_parts(length, &places(&runs))?;
    let writeback = Writeback::of(output.file()?);
    Copying {
        files: &files,
        output: &output,
        to: output.file()?,
    }
    .all(&runs)?;
    given.same()?;
    drop(writeback);
    output.finish()?;
    let stored: u64 = runs.iter().map(Run::length).sum();
    print::answer(
        json,
        || told(target, length, stored),
        || object(&given, target, length, stored),
    )
}

fn told(target: &Target, length: u64, stored: u64) -> String {
    let name = name(&target.path);
    format!("{name}: written, {length} bytes, of which {stored} are stored and all others a hole\n")
}

fn object(given: &Given, target: &Target, length: u64, stored: u64) -> Value {
    let mut object = json!({ "length": length, "stored": stored });
    put_name(&mut object, "output", &target.path);
    for (key, value) in given.remarks() {
        object[key] = value;
    }
    object
}
