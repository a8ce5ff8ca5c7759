//! The stored files, and what they must hold.

use crate::{cases, checks};
use std::fs;
use std::io;
use std::path::{Path, PathBuf};

/// A stored file: its path in the repository and what it must hold.
pub struct Stored {
    pub path: String,
    pub bytes: Vec<u8>,
}

/// The repository's folder.
pub fn root() -> PathBuf {
    PathBuf::from(concat!(env!("CARGO_MANIFEST_DIR"), "/../.."))
}

pub fn all(root: &Path) -> io::Result<Vec<Stored>> {
    let mut files = Vec::new();
    let mut add = |path: String, bytes: Vec<u8>| files.push(Stored { path, bytes });
    for path in images(root)? {
        let line = checks::line(&fs::read(root.join(&path))?);
        add(format!("{path}.line"), line.into_bytes());
    }
    for path in inputs(root, "tests/cases", |name| !name.ends_with(".lines"))? {
        let lines = cases::output(&fs::read(root.join(&path))?);
        add(format!("{path}.lines"), lines.into_bytes());
    }
    // Written out by hand, and the loop above has said what the plain implementation answers.
    let path = "tests/cases/layers".to_string();
    add(format!("{path}.lines"), cases::layers::lines().into_bytes());
    add(path, cases::layers::input());
    for name in programs(root)? {
        let path = format!("crates/{name}/stdin");
        let input = if name == "cases" {
            cases::input(root)?
        } else {
            fs::read(root.join(&path))?
        };
        add(
            format!("crates/{name}/stdout"),
            output(&name, &input)?.into_bytes(),
        );
        add(path, input);
    }
    Ok(files)
}

/// What a program prints for an input.
fn output(program: &str, input: &[u8]) -> io::Result<String> {
    match program {
        "cases" => Ok(cases::output(input)),
        "vmdk_check" => Ok(checks::line(input)),
        _ => Err(io::Error::new(
            io::ErrorKind::Other,
            format!("nothing here says what crates/{program} prints"),
        )),
    }
}

/// The program crates: those with an input.
fn programs(root: &Path) -> io::Result<Vec<String>> {
    let mut names = Vec::new();
    for entry in fs::read_dir(root.join("crates"))? {
        let entry = entry?;
        if entry.path().join("stdin").exists() {
            names.push(entry.file_name().to_string_lossy().into_owned());
        }
    }
    names.sort();
    Ok(names)
}

/// The images that vmdk_check is run on: all of tests/checks, and the samples that are named so.
fn images(root: &Path) -> io::Result<Vec<String>> {
    let checks = inputs(root, "tests/checks", |name| !name.ends_with(".line"))?;
    let samples = inputs(root, "samples", |name| name.ends_with(".vmdk"))?;
    Ok([checks, samples].concat())
}

/// The paths of a folder's inputs, which a name tells.
fn inputs(root: &Path, folder: &str, is_input: fn(&str) -> bool) -> io::Result<Vec<String>> {
    let mut paths = Vec::new();
    for entry in fs::read_dir(root.join(folder))? {
        let name = entry?.file_name().to_string_lossy().into_owned();
        if is_input(&name) {
            paths.push(format!("{folder}/{name}"));
        }
    }
    paths.sort();
    Ok(paths)
}

/// The files that are not stored as they must be.
pub fn differing<'a>(root: &Path, files: &'a [Stored]) -> Vec<&'a Stored> {
    let differs =
        |file: &&Stored| fs::read(root.join(&file.path)).ok().as_ref() != Some(&file.bytes);
    files.iter().filter(differs).collect()
}

pub fn write(root: &Path, file: &Stored) -> io::Result<()> {
    fs::write(root.join(&file.path), &file.bytes)
}
