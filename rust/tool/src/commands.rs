//! The commands and their words, as clap knows them.

use crate::grading::{descriptor, grading, sectors, strict};
use crate::numbers;
use clap::{value_parser, Arg, ArgAction, Command};
use std::path::PathBuf;

/// The package's, said once.
const VERSION: &str = include_str!("../../../package/VERSION");

pub const STATUS: &str = "\
Exit status, of several files the greatest:
  0  yes
  1  refused by the rules of the format
  2  wrong use
  3  a list that does not hold
  4  a file that cannot be read or written, or that changed

docs/TOOL.md has an example for each command.";

const IMAGE_OUT: &str = "The file to write; it appears when it is whole";

fn files(about: &'static str) -> Arg {
    Arg::new("files")
        .value_name("FILE")
        .help(about)
        .value_parser(value_parser!(PathBuf))
        .num_args(1..)
        .required(true)
}

pub fn layers() -> Arg {
    files("The image, the descriptor of a disk of several files, or the layers of a chain, base first")
}

fn number() -> Arg {
    Arg::new("sector")
        .value_name("N")
        .help("The number of a virtual sector, from 0")
        .value_parser(numbers::number)
        .required(true)
}

pub fn output(about: &'static str, required: bool) -> Arg {
    Arg::new("output")
        .short('o')
        .long("output")
        .value_name("OUT")
        .help(about)
        .value_parser(value_parser!(PathBuf))
        .required(required)
}

pub fn force() -> Arg {
    flag("force", "Replace OUT if it exists").requires("output")
}

pub fn flag(name: &'static str, about: &'static str) -> Arg {
    Arg::new(name)
        .long(name)
        .help(about)
        .action(ArgAction::SetTrue)
}

pub fn subcommand(name: &'static str) -> Command {
    Command::new(name).after_help(STATUS)
}

pub fn command() -> Command {
    let command = Command::new("anhkhovet")
        .about("Reads VMDK sparse disk images, and moves COWD ones to that kind, by a library that is proved")
        .version(VERSION.trim_end())
        .after_help(STATUS)
        .subcommand_required(true)
        .arg_required_else_help(true)
        .arg(
            Arg::new("json")
                .long("json")
                .global(true)
                .help("Answer with one JSON object")
                .action(ArgAction::SetTrue),
        );
    let command = describing(grading(explaining(reading(judging(command)))));
    picturing(closing(moving(mending(writing(command)))))
}

fn judging(command: Command) -> Command {
    command
        .subcommand(
            subcommand("check")
                .about("Says whether images meet every layout rule")
                .arg(files("The images and descriptors, each judged by itself")),
        )
        .subcommand(
            subcommand("profile")
                .about("Says whether images have the one form of what is published, and else where they differ from it first")
                .arg(files("The images, each judged by itself")),
        )
        .subcommand(
            subcommand("survey")
                .about("Counts the grains of images by kind, with totals and a tally of refusals")
                .arg(files("The images, each judged by itself")),
        )
}

fn reading(command: Command) -> Command {
    command
        .subcommand(
            subcommand("sector")
                .about("Says where a sector comes from: layer or extent, kind, file sector, byte offset")
                .arg(layers())
                .arg(number())
                .arg(strict()),
        )
        .subcommand(
            subcommand("read")
                .about("Gives the 512 bytes of a sector, or the closed payload of its packed grain")
                .arg(layers())
                .arg(number())
                .arg(sectors().help("The bytes of so many sectors from N on, none of them packed"))
                .arg(output(
                    "The file to write, instead of standard output; it appears when it is whole",
                    false,
                ))
                .arg(force())
                .arg(strict()),
        )
        .subcommand(
            subcommand("map")
                .about("Lists the runs of sectors that have one source")
                .arg(layers())
                .arg(flag(
                    "coverage",
                    "Count instead: what the sectors of each file are for, and where those of the disk come from",
                ))
                .arg(strict()),
        )
}

fn explaining(command: Command) -> Command {
    command.subcommand(
        subcommand("explain")
            .about(
                "Says how a sector is found, step by step, with the bytes that stand in the file",
            )
            .arg(layers())
            .arg(number())
            .arg(strict()),
    )
}

fn writing(command: Command) -> Command {
    command
        .subcommand(
            subcommand("collapse")
                .about("Writes one image that reads as the layers do")
                .arg(files("The layers, lowest first, two at least").num_args(2..))
                .arg(output(IMAGE_OUT, true))
                .arg(force())
                .arg(descriptor())
                .arg(strict()),
        )
        .subcommand(
            subcommand("normal")
                .about("Writes an image's normal form")
                .arg(files("The image").num_args(1))
                .arg(output(IMAGE_OUT, true))
                .arg(force())
                .arg(descriptor()),
        )
}

fn telling(command: Command) -> Command {
    let refusal = Arg::new("refusal")
        .value_name("N")
        .help("The number of a refusal; without it all are listed")
        .value_parser(crate::refusals::of_word);
    command
        .subcommand(
            subcommand("header")
                .about("Says of each field of a header what stands there, what it means, and which rule it meets or breaks")
                .arg(files("The image").num_args(1)),
        )
        .subcommand(
            subcommand("refusals")
                .about("Says what the numbers of refusals mean, what causes them and what to try")
                .arg(refusal),
        )
}

fn describing(command: Command) -> Command {
    telling(command).subcommand(
        subcommand("describe")
            .about("Says what a descriptor says, a file of its own or one inside an image")
            .arg(
                files("The descriptor, - for standard input, or an image that holds one")
                    .num_args(1),
            )
            .arg(
                number()
                    .required(false)
                    .long("sector")
                    .help("Also say which extent holds sector N"),
            ),
    )
}

fn mending(command: Command) -> Command {
    let good = Arg::new("good")
        .long("good")
        .value_name("SIDE")
        .help("The directory whose tables are right")
        .value_parser(["primary", "redundant"])
        .required(true);
    command.subcommand(
        subcommand("mend")
            .about("Says what changes where tables are mended from the other directory's, and writes an image so mended")
            .arg(files("The image, which is only read").num_args(1))
            .arg(good)
            .arg(output("The file to write; without it nothing is written", false))
            .arg(force())
            .arg(flag("all", "List every change")),
    )
}

fn moving(command: Command) -> Command {
    command.subcommand(
        subcommand("move")
            .about("Writes COWD images as KDMV, and KDMV images as COWD, with the digest of their sectors")
            .arg(files("The images, which are only read; each is moved to the other kind"))
            .arg(output(
                "The file to write, or a folder for files of the same names; each appears when it is whole",
                true,
            ))
            .arg(force())
            .arg(descriptor()),
    )
}

fn closing(command: Command) -> Command {
    command.subcommand(
        subcommand("close")
            .about("Writes what a stream that broke off has kept, closed so that it is an image")
            .arg(files("The start of a stream, which is only read").num_args(1))
            .arg(output(IMAGE_OUT, true))
            .arg(force()),
    )
}

fn picturing(command: Command) -> Command {
    command.subcommand(
        subcommand("picture")
            .about("Draws files and the disk as strips, in an SVG: what each sector is for, and what is in two areas")
            .arg(files("The image, or the layers of a chain, base first; also such as `check` refuses with 9 to 12"))
            .arg(output(IMAGE_OUT, true))
            .arg(force()),
    )
}
