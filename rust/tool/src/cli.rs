//! The command line: what its words ask for.

use crate::commands::command;
use crate::digest;
use crate::grading;
use crate::list;
use crate::mend;
use crate::names;
use crate::stretch::Stretch;
use crate::whole;
use anhkhovet::Side;
use clap::error::ErrorKind;
use clap::ArgMatches;
use std::env;
use std::ffi::OsString;
use std::os::unix::ffi::OsStrExt;
use std::path::{Path, PathBuf};

/// Where an output goes, and whether it may replace a file.
pub struct Target {
    pub path: PathBuf,
    pub force: bool,
}

pub enum Task {
    Check(Vec<PathBuf>),
    Profile(Vec<PathBuf>),
    Survey(Vec<PathBuf>),
    Sector(Vec<PathBuf>, u64),
    Explain(Vec<PathBuf>, u64),
    Read(Vec<PathBuf>, u64, Option<Target>),
    /// Sectors in a row, as they are on the disk.
    ReadRow(Vec<PathBuf>, Stretch, Option<Target>),
    Map(Vec<PathBuf>),
    Coverage(Vec<PathBuf>),
    Digest(Vec<PathBuf>, digest::Asked),
    Whole(Vec<PathBuf>, whole::Asked),
    Compare(Vec<PathBuf>, list::Asked),
    Raw(Vec<PathBuf>, Target),
    /// With the name of a descriptor beside the result, as the two others that write such results.
    Collapse(Vec<PathBuf>, Target, Option<PathBuf>),
    Normal(PathBuf, Target, Option<PathBuf>),
    Mend(mend::Asked),
    Move(Vec<PathBuf>, Target, Option<PathBuf>),
    Close(PathBuf, Target),
    Picture(Vec<PathBuf>, Target),
    Describe(PathBuf, Option<u64>),
    Header(PathBuf),
    /// Of one number, or of all.
    Refusals(Option<u64>),
}

/// Why there is no task: help that was asked for, or words that are wrong.
pub enum Stop {
    Help(String),
    Wrong(String),
}

const IMAGE_FROM_INPUT: &str =
    "an image is read here and there, so it cannot come from `-`, standard input; a file of that name is ./-";

const IMAGE_TO_OUTPUT: &str =
    "an image is written here and there, so it cannot go to `-`, standard output; a file of that name is ./-";

const PICTURE_TO_OUTPUT: &str =
    "a picture is a file that appears when it is whole, so it cannot go to `-`, standard output; a file of that name is ./-";

fn task(name: &str, given: &ArgMatches) -> Option<Task> {
    if name == "refusals" {
        return Some(Task::Refusals(given.get_one("refusal").copied()));
    }
    let files: Vec<PathBuf> = given.get_many("files")?.cloned().collect();
    let sector = || given.get_one::<u64>("sector").copied();
    let target = || {
        Some(Target {
            path: given.get_one::<PathBuf>("output")?.clone(),
            force: given.get_flag("force"),
        })
    };
    let descriptor = || given.get_one::<PathBuf>("descriptor").cloned();
    Some(match name {
        "check" => Task::Check(files),
        "profile" => Task::Profile(files),
        "survey" => Task::Survey(files),
        "sector" => Task::Sector(files, sector()?),
        "explain" => Task::Explain(files, sector()?),
        "read" => grading::read_task(files, given, target().filter(|to| !stream(&to.path)))?,
        "map" if given.get_flag("coverage") => Task::Coverage(files),
        "map" => Task::Map(files),
        "digest" => grading::digest_task(files, given)?,
        "raw" => Task::Raw(files, target()?),
        "collapse" => Task::Collapse(files, target()?, descriptor()),
        "normal" => Task::Normal(files.into_iter().next()?, target()?, descriptor()),
        "mend" => Task::Mend(mend::Asked {
            file: files.into_iter().next()?,
            good: match given.get_one::<String>("good")?.as_str() {
                "primary" => Side::Primary,
                _ => Side::Redundant,
            },
            target: target(),
            all: given.get_flag("all"),
        }),
        "move" => Task::Move(files, target()?, descriptor()),
        "close" => Task::Close(files.into_iter().next()?, target()?),
        "picture" => Task::Picture(files, target()?),
        "describe" => Task::Describe(files.into_iter().next()?, sector()),
        "header" => Task::Header(files.into_iter().next()?),
        _ => return None,
    })
}

/// Whether a name stands for a standard stream.
pub fn stream(path: &Path) -> bool {
    path.as_os_str() == "-"
}

/// Why a stream cannot be what a task takes it for, or nothing.
fn misused(task: &Task) -> Option<&'static str> {
    let input = match task {
        Task::Check(files) | Task::Profile(files) | Task::Survey(files) => files,
        Task::Map(files) | Task::Coverage(files) | Task::Digest(files, _) => files,
        Task::Sector(files, _) | Task::Read(files, ..) | Task::Compare(files, _) => files,
        Task::ReadRow(files, ..) | Task::Whole(files, _) | Task::Raw(files, _) => files,
        Task::Collapse(files, ..) | Task::Move(files, ..) | Task::Picture(files, _) => files,
        Task::Normal(file, ..) | Task::Close(file, _) => std::slice::from_ref(file),
        Task::Mend(asked) => std::slice::from_ref(&asked.file),
        Task::Explain(files, _) => files,
        Task::Describe(..) => &[],
        Task::Header(file) => std::slice::from_ref(file),
        Task::Refusals(_) => &[],
    };
    let output = match task {
        Task::Collapse(_, to, _) | Task::Normal(_, to, _) | Task::Raw(_, to) => Some(to),
        Task::Move(_, to, _) | Task::Close(_, to) | Task::Picture(_, to) => Some(to),
        Task::Mend(asked) => asked.target.as_ref(),
        _ => None,
    };
    if input.iter().any(|file| stream(file)) {
        return Some(IMAGE_FROM_INPUT);
    }
    let unfit = output.map_or(false, |to| stream(&to.path));
    let why = match task {
        Task::Picture(..) => PICTURE_TO_OUTPUT,
        _ => IMAGE_TO_OUTPUT,
    };
    unfit.then_some(why)
}

/// What is to be done, and how.
pub struct Asked {
    pub task: Task,
    pub json: bool,
    /// Whether layers that are no parent and child are a failure.
    pub strict: bool,
}

fn asked(words: &[OsString]) -> Result<Asked, clap::Error> {
    let given = command().try_get_matches_from(words)?;
    let asked = |(name, given): (&str, &ArgMatches)| {
        Some(Asked {
            task: task(name, given)?,
            json: given.get_flag("json"),
            strict: grading::is_strict(given),
        })
    };
    let asked = given
        .subcommand()
        .and_then(asked)
        .ok_or_else(|| command().error(ErrorKind::MissingSubcommand, "no command is given"))?;
    match misused(&asked.task) {
        Some(why) => Err(command().error(ErrorKind::InvalidValue, why)),
        None => Ok(asked),
    }
}

pub fn parse() -> Result<Asked, Stop> {
    let words: Vec<OsString> = env::args_os().collect();
    asked(&words).map_err(|error| {
        // clap tells words as they are: so it is asked once more, with words as they may be told.
        let shown = words.iter().map(|word| names::shown(word.as_bytes()));
        let error = command().try_get_matches_from(shown).err().unwrap_or(error);
        let text = error.to_string();
        if error.use_stderr() {
            Stop::Wrong(text)
        } else {
            Stop::Help(text)
        }
    })
}
