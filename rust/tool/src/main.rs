//! anhkhovet: what the proved library says of disk images, for files of any size.
//!
//! The library is lent memory of the tool's own, into which what decides is copied, and the tool tells its answers.

mod alike;
mod batch;
mod beside;
mod changes;
mod check;
mod checked;
mod cli;
mod close;
mod commands;
mod copied;
mod cores;
mod coverage;
mod cowd;
mod describe;
mod described;
mod descriptor;
mod difference;
mod differing;
mod digest;
mod entries;
mod explain;
mod failure;
mod files;
mod folder;
mod formats;
mod frame;
mod front;
mod given;
mod grading;
mod grains;
mod guard;
mod hash;
mod header;
mod held;
mod hint;
mod json;
mod judged;
mod kept;
mod layer;
mod lent;
mod lines;
mod list;
mod map;
mod mapping;
mod member;
mod mend;
mod mended;
mod moves;
mod named;
mod names;
mod numbers;
mod output;
mod own;
#[cfg(test)]
mod packaged;
mod parents;
mod picture;
mod place;
mod print;
mod profile;
mod progress;
mod raw;
mod refusals;
mod reports;
mod room;
mod row;
mod runs;
mod sector;
mod signals;
mod source;
mod split;
mod start;
mod still_open;
mod streams;
mod stretch;
mod survey;
mod table;
mod text;
mod unmendable;
mod verdicts;
mod whole;
mod worker;
mod write;
mod writeback;

use cli::{Asked, Stop, Task};
use failure::{Failure, Status};
use std::process::exit;

fn run(task: Task, json: bool) -> Result<(), Failure> {
    match task {
        Task::Check(files) => check::check(&files, json),
        Task::Profile(files) => profile::profile(&files, json),
        Task::Survey(files) => survey::survey(&files, json),
        Task::Sector(files, sector) => sector::sector(&files, sector, json),
        Task::Explain(files, sector) => explain::explain(&files, sector, json),
        Task::Read(files, sector, target) => sector::read(&files, sector, target, json),
        Task::ReadRow(files, stretch, target) => row::read(&files, stretch, target, json),
        Task::Map(files) => map::map(&files, json),
        Task::Coverage(files) => coverage::coverage(&files, json),
        Task::Digest(files, asked) => digest::print(&files, &asked, json),
        Task::Whole(files, asked) => whole::whole(&files, &asked, json),
        Task::Compare(files, asked) => list::compare(&files, &asked, json),
        Task::Raw(files, target) => raw::raw(&files, &target, json),
        Task::Collapse(files, target, descriptor) => {
            write::collapse(&files, &target, descriptor.as_deref(), json)
        }
        Task::Normal(file, target, descriptor) => {
            write::normal(&file, &target, descriptor.as_deref(), json)
        }
        Task::Mend(asked) => mend::mend(&asked, json),
        Task::Move(files, target, descriptor) => {
            moves::run(&files, &target, descriptor.as_deref(), json)
        }
        Task::Close(file, target) => close::close(&file, &target, json),
        Task::Picture(files, target) => picture::picture(&files, &target, json),
        Task::Describe(file, sector) => describe::describe(&file, sector, json),
        Task::Header(file) => header::header(&file, json),
        Task::Refusals(number) => refusals::refusals(number, json),
    }
}

fn main() {
    if let Err(error) = signals::install() {
        print::note(&format!("signals cannot be handled: {error}"));
        exit(Status::Failed as i32);
    }
    exit(worker::run(command));
}

/// From the command line to the status.
fn command() -> i32 {
    let (ended, json) = match cli::parse() {
        Ok(Asked { task, json, strict }) => {
            guard::owe_object(json);
            parents::be_strict(strict);
            (run(task, json), json)
        }
        Err(Stop::Help(text)) => (print::text(&text), false),
        Err(Stop::Wrong(text)) => {
            print::error(&text);
            (Err(Failure::Told(Status::Misused)), false)
        }
    };
    match ended {
        Ok(()) => 0,
        Err(failure) => tell(hint::hinted(failure), json),
    }
}

/// On standard error always; as an object too where one was asked for and nothing of it is printed.
fn tell(failure: Failure, json: bool) -> i32 {
    if !matches!(failure, Failure::Told(_)) {
        print::note(&failure.to_string());
        if json && guard::object_owed() {
            let _ = print::object(&failure.json());
        }
    }
    failure.status() as i32
}
