//! What the package has from the command line's words: completions, made by clap's own library, and the manual page. With
//! ANHKHOVET_WRITE set they are written anew.

use crate::commands::{command, STATUS};
use clap::{Arg, Command};
use clap_complete::{generate, Shell};
use std::fmt::Write;
use std::fs;
use std::path::Path;

fn held(path: &str, text: &str) {
    let path = Path::new(env!("CARGO_MANIFEST_DIR"))
        .join("../../package")
        .join(path);
    if std::env::var_os("ANHKHOVET_WRITE").is_some() {
        fs::write(path, text).expect("written");
    } else {
        let stored = fs::read_to_string(&path).expect("stored");
        assert!(text == stored, "{} is another", path.display());
    }
}

#[test]
fn completions_are_those_of_today() {
    let shells = [
        (Shell::Bash, "completions/anhkhovet.bash"),
        (Shell::Zsh, "completions/_anhkhovet"),
        (Shell::Fish, "completions/anhkhovet.fish"),
    ];
    for (shell, path) in shells {
        let mut text = Vec::new();
        generate(shell, &mut command(), "anhkhovet", &mut text);
        held(path, &typed(&String::from_utf8(text).expect("words")));
    }
}

/// What can be typed alone: of commands that take files clap's library has bash offer `<FILE>...`, and all options where nothing
/// is typed yet. Without these bash offers the files themselves, and the options behind a `-`.
fn typed(text: &str) -> String {
    let offer = "            COMPREPLY=( $(compgen -W \"${opts}\" -- \"${cur}\") )";
    let mut takes_files = false;
    let mut typed = String::new();
    for line in text.lines() {
        match line.split_once(" <").or_else(|| line.split_once(" [N]")) {
            Some((options, _)) if line.starts_with("            opts=") => {
                takes_files = true;
                writeln!(typed, "{options}\"").expect("written");
            }
            _ if takes_files && line == offer => takes_files = false,
            _ if takes_files => {
                writeln!(typed, "{}", line.replace(" || ${COMP_CWORD} -eq 2", ""))
                    .expect("written");
            }
            _ => writeln!(typed, "{line}").expect("written"),
        }
    }
    typed
}

#[test]
fn the_manual_page_is_that_of_today() {
    held("man/anhkhovet.1.in", &page(command()));
}

/// Words as a manual page has them: no sign of theirs is taken for one of its own.
fn shown(words: &str) -> String {
    words.replace('\\', "\\e").replace('-', "\\-")
}

fn about(command: &Command) -> String {
    let words = command.get_about().expect("what it does");
    shown(&words.to_string())
}

fn page(mut command: Command) -> String {
    command.build();
    let mut page = format!(
        ".TH ANHKHOVET 1 \"@DATE@\" \"anhkhovet @VERSION@\"\n.SH NAME\nanhkhovet \\- {}\n.SH SYNOPSIS\n.B anhkhovet\n\
         .RI [ OPTIONS ]\\~ COMMAND\\~ ...\n.SH COMMANDS\n",
        about(&command)
    );
    for subcommand in command.get_subcommands_mut() {
        if subcommand.get_name() != "help" {
            page += &entry(subcommand);
        }
    }
    page += ".SH OPTIONS\n";
    page += &command.get_arguments().map(argument).collect::<String>();
    page += &statuses();
    page += ".SH SEE ALSO\n.BR anhkhovet (3),\n.BR nbdkit-anhkhovet-plugin (1),\nand below share/anhkhovet docs/COURSE.md, \
             docs/TOOL.md with an example of each command, and docs/REFUSALS.md.\n";
    page
}

/// One command: how it is called, what it does, and its words.
fn entry(command: &mut Command) -> String {
    let usage = command.render_usage().to_string();
    let usage = usage.trim_start_matches("Usage: ").trim_end();
    let mut entry = format!(".SS {}\n", command.get_name());
    write!(entry, "{}\n.PP\n{}.\n", shown(usage), about(command)).expect("written");
    let own = |word: &&Arg| !word.is_global_set() && word.get_id() != "help";
    entry += &command
        .get_arguments()
        .filter(own)
        .map(argument)
        .collect::<String>();
    entry
}

/// One word of a command line, and what it means.
fn argument(word: &Arg) -> String {
    let short = word.get_short().map(|letter| format!("-{letter}"));
    let long = word.get_long().map(|name| format!("--{name}"));
    let name: Vec<String> = short.into_iter().chain(long).collect();
    let takes = word.is_positional() || word.get_action().takes_values();
    let value = match word.get_value_names() {
        Some([value, ..]) if takes => format!("\\fI{}\\fR", shown(value)),
        _ => String::new(),
    };
    let mut help = word.get_help().map(ToString::to_string).unwrap_or_default();
    let values: Vec<String> = word
        .get_possible_values()
        .iter()
        .map(|value| value.get_name().to_string())
        .collect();
    if takes && !values.is_empty() {
        write!(help, ": {}", values.join(", ")).expect("written");
    }
    let name = shown(&name.join(", "));
    let name = format!("\\fB{name}\\fR {value}").replace("\\fB\\fR ", "");
    format!(".TP\n{}\n{}.\n", name.trim_end(), shown(&help))
}

/// What the exit statuses mean, from what each help ends with.
fn statuses() -> String {
    let mut told = String::from(".SH EXIT STATUS\nOf several files the greatest.\n");
    for line in STATUS.lines().filter(|line| line.starts_with("  ")) {
        let (status, meaning) = line.trim().split_once("  ").expect("a status");
        write!(told, ".TP\n.B {status}\n{}.\n", shown(meaning)).expect("written");
    }
    told
}
