//! The pages of docs/ that show runs: each `$ command` of theirs is run, and what it prints compared with what they show.

mod common;

use common::{samples, Folder, TOOL};
use std::fs;
use std::os::unix::fs::symlink;
use std::path::Path;
use std::process::{Command, Stdio};

/// A command, and the lines that a page shows under it.
struct Shown {
    /// The number of the section that it stands in.
    section: usize,
    command: String,
    lines: Vec<String>,
}

/// Blocks of code are indented by four spaces.
fn shown(page: &str) -> Vec<Shown> {
    let mut all: Vec<Shown> = Vec::new();
    let mut open = false;
    let mut section = 0;
    for line in page.lines() {
        section += usize::from(line.starts_with("## "));
        match line.strip_prefix("    ") {
            Some(code) => match code.strip_prefix("$ ") {
                Some(command) => {
                    let command = command.to_string();
                    all.push(Shown {
                        section,
                        command,
                        lines: Vec::new(),
                    });
                    open = true;
                }
                None if open => all
                    .last_mut()
                    .expect("a command")
                    .lines
                    .push(code.to_string()),
                None => {}
            },
            None => open = false,
        }
    }
    all
}

/// By a shell: under an emulator a program that is not there still seems to start.
fn there(program: &str) -> bool {
    let found = Command::new("sh")
        .arg("-c")
        .arg(format!("command -v {program}"))
        .output();
    found.map_or(false, |output| output.status.success())
}

/// Leaves out the sections that make an image with qemu-img, where that is missing and may be.
fn leave_out(shown: &mut Vec<Shown>, name: &str) {
    if std::env::var_os("ANHKHOVET_QEMU_IMG").is_some() || there("qemu-img") {
        return;
    }
    let made = shown
        .iter()
        .filter(|shown| shown.command.starts_with("qemu-img "));
    let made: Vec<usize> = made.map(|shown| shown.section).collect();
    for section in &made {
        println!("NOT RUN: section {section} of {name}, since qemu-img is not here");
    }
    shown.retain(|shown| !made.contains(&shown.section));
}

/// The commands run by a shell, in a folder with samples, where `anhkhovet` is the tool.
fn page(name: &str, least: usize) {
    let path = Path::new(env!("CARGO_MANIFEST_DIR"))
        .join("../../docs")
        .join(name);
    let mut shown = shown(&fs::read_to_string(path).expect("a page"));
    assert!(shown.len() >= least, "{} commands in {name}", shown.len());
    leave_out(&mut shown, name);

    let folder = Folder::new();
    let images = fs::canonicalize(samples()).expect("samples");
    symlink(images, folder.at("samples")).expect("a link");
    let runner = std::env::var("ANHKHOVET_RUNNER").unwrap_or_default();
    let tool = format!("anhkhovet() {{ {runner} '{TOOL}' \"$@\"; }}");

    for Shown { command, lines, .. } in shown {
        let word = command.split(' ').next().unwrap_or_default();
        if word == "python3" && !there(word) {
            println!("NOT RUN: a command of {name}, since python3 is not here");
            continue;
        }
        let output = Command::new("sh")
            .arg("-c")
            .arg(format!("{tool}\n{{ {command}\n}} 2>&1"))
            .current_dir(folder.path())
            .stdin(Stdio::null())
            .output()
            .expect("a shell");
        let text = String::from_utf8_lossy(&output.stdout).into_owned();
        let printed: Vec<&str> = text.lines().collect();
        assert_eq!(printed, lines, "{name}: {command}");
    }
}

#[test]
fn coverage() {
    page("COVERAGE.md", 4);
}

#[test]
fn course() {
    page("COURSE.md", 100);
}

#[test]
fn tool() {
    page("TOOL.md", 10);
}

/// The README tells what its first command prints.
#[test]
fn readme() {
    let text = fs::read_to_string("../../README.md").expect("the README");
    let mut shown = text
        .lines()
        .filter_map(|line| line.trim().strip_prefix("rust/tool/run "));
    let words = shown
        .next()
        .and_then(|line| line.split('#').next())
        .expect("a command");
    let output = Command::new("sh")
        .arg("-c")
        .arg(format!(
            "{} '{TOOL}' {words}",
            std::env::var("ANHKHOVET_RUNNER").unwrap_or_default()
        ))
        .current_dir("../..")
        .output()
        .expect("a shell");
    let printed = String::from_utf8_lossy(&output.stdout);
    assert!(text.contains(&format!("`{}`", printed.trim())), "{printed}");
}
