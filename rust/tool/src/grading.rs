//! The words of the commands that grade: `digest` and `raw`, and words that they share with others.

use crate::cli::{Target, Task};
use crate::commands::{flag, force, layers, output, subcommand};
use crate::digest;
use crate::formats::Format;
use crate::list;
use crate::numbers::{count, number};
use crate::stretch::Stretch;
use crate::whole;
use clap::{value_parser, Arg, ArgMatches, Command};
use std::path::PathBuf;

pub fn grading(command: Command) -> Command {
    command.subcommand(digesting()).subcommand(
        subcommand("raw")
            .about("Writes the disk as a raw file, with holes where its sectors are zero or absent")
            .arg(layers())
            .arg(output(
                "The file to write; it appears when it is whole",
                true,
            ))
            .arg(force())
            .arg(strict()),
    )
}

fn digesting() -> Command {
    let list = Arg::new("list")
        .long("list")
        .value_name("LIST")
        .help("Compare with the lines of LIST, of any of the forms, - for standard input, and tell all that do not hold")
        .value_parser(value_parser!(PathBuf));
    let first = Arg::new("first")
        .long("first")
        .value_name("N")
        .help("The first sector that is asked for, instead of 0")
        .value_parser(number);
    let format = Arg::new("format")
        .long("format")
        .value_name("FORM")
        .help("The form of the list that is printed")
        .value_parser(Format::WORDS)
        .default_value(Format::WORDS[0])
        .conflicts_with_all(["list", "json"]);
    subcommand("digest")
        .about("Gives the SHA-256 digest of each sector, or compares with a list of them")
        .arg(layers())
        .arg(flag(
            "grain",
            "One digest for each grain, told by its first sector",
        ))
        .arg(
            flag(
                "whole",
                "One digest of the whole disk, as a raw copy of it has",
            )
            .conflicts_with_all(["grain", "first", "count"]),
        )
        .arg(first)
        .arg(sectors().help("So many sectors, instead of all from the first on"))
        .arg(format)
        .arg(list)
        .arg(flag("complete", "What LIST leaves out is a failure").requires("list"))
        .arg(strict())
}

/// How many sectors.
pub fn sectors() -> Arg {
    Arg::new("count")
        .long("count")
        .value_name("COUNT")
        .value_parser(count)
}

/// For every command that takes a chain.
pub fn strict() -> Arg {
    flag(
        "strict",
        "Layers that are no parent and child by their own texts are a failure, and not only told",
    )
}

pub fn descriptor() -> Arg {
    Arg::new("descriptor")
        .long("descriptor")
        .value_name("NAME")
        .help("Also write a descriptor of OUT, under that name beside it, by which other programs open it")
        .value_parser(value_parser!(PathBuf))
}

/// Whether layers that are no parent and child are a failure.
pub fn is_strict(given: &ArgMatches) -> bool {
    let strict = given.try_get_one::<bool>("strict");
    matches!(strict, Ok(Some(true)))
}

pub fn digest_task(files: Vec<PathBuf>, given: &ArgMatches) -> Option<Task> {
    let list = given.get_one::<PathBuf>("list").cloned();
    let format = Format::of(given.get_one::<String>("format")?);
    let grains = given.get_flag("grain");
    let stretch = Stretch {
        first: given.get_one("first").copied().unwrap_or(0),
        count: given.get_one("count").copied(),
    };
    if given.get_flag("whole") {
        return Some(Task::Whole(files, whole::Asked { list, format }));
    }
    Some(match list {
        None => Task::Digest(
            files,
            digest::Asked {
                grains,
                stretch,
                format,
            },
        ),
        Some(list) => Task::Compare(
            files,
            list::Asked {
                list,
                grains,
                complete: given.get_flag("complete"),
                stretch,
            },
        ),
    })
}

/// One sector, or with a count those from it on as they are on the disk.
pub fn read_task(files: Vec<PathBuf>, given: &ArgMatches, target: Option<Target>) -> Option<Task> {
    let first = given.get_one("sector").copied()?;
    let count = given.get_one("count").copied();
    Some(match count {
        None => Task::Read(files, first, target),
        Some(_) => Task::ReadRow(files, Stretch { first, count }, target),
    })
}
