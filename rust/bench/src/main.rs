//! `bench [--quick] [CALL]..`: times of the proved library's calls, or of the tool's commands, beside those of their rivals, as
//! one table in Markdown.
//!
//! README.md says what is measured and how. Status 1 where something failed or two sides gave different answers, 2 where
//! nothing was measured: wrong arguments, or no x86-64 processor.

mod bitmap;
mod check;
mod close;
mod collapse;
mod commands;
mod copies;
mod descriptor;
mod folder;
mod image;
mod lookup;
mod machine;
mod map;
mod marks;
mod mend;
mod moves;
mod profile;
mod qemu;
mod report;
mod side;
mod survey;
mod timing;

use folder::Folder;
use machine::Machine;
use qemu::Qemu;
use report::Report;
use std::error::Error;
use std::fmt::Debug;
use std::process::exit;

/// Inputs depend on it alone.
const SEED: u64 = 7;
const CALLS: [&str; 12] = [
    "check",
    "marks",
    "profile",
    "copies",
    "mend",
    "survey",
    "lookup",
    "chain",
    "collapse",
    "moves",
    "close",
    "descriptor",
];
/// Not among them: it needs the tool, built, and measures a disk too.
const COMMANDS: &str = "commands";

type Outcome = Result<(), Box<dyn Error>>;

/// What all measures share.
pub struct Setup {
    /// Small inputs and few rounds: to see that all works.
    quick: bool,
    rounds: u32,
    qemu: Qemu,
    folder: Folder,
}

impl Setup {
    fn new(quick: bool) -> std::io::Result<Setup> {
        Ok(Setup {
            quick,
            rounds: if quick { 2 } else { 7 },
            qemu: Qemu::new(if quick { 1 } else { 5 }),
            folder: Folder::new(&std::env::temp_dir())?,
        })
    }

    /// Progress goes where it does not mix with the table.
    fn progress(&self, doing: &str) {
        eprintln!("bench: {doing}");
    }
}

/// A time of a wrong answer is no figure.
fn agree<T: PartialEq + Debug>(call: &str, ours: &T, theirs: &T) -> Outcome {
    if ours == theirs {
        return Ok(());
    }
    Err(format!("{call}: {ours:?} and {theirs:?} are not the same").into())
}

fn main() {
    let mut quick = false;
    let mut calls = Vec::new();
    for argument in std::env::args().skip(1) {
        match argument.as_str() {
            "--quick" => quick = true,
            call if CALLS.contains(&call) || call == COMMANDS => calls.push(call.to_string()),
            _ => {
                eprintln!("bench [--quick] [CALL]..: a call is one of {CALLS:?}, all without any, or {COMMANDS:?}: the tool's");
                exit(2)
            }
        }
    }
    if calls.is_empty() {
        calls.extend(CALLS.map(String::from));
    }
    if let Some(why) = machine::emulated() {
        eprintln!(
            "bench: no ratios here, since {why}: a time taken under an emulator says nothing"
        );
        exit(2)
    }
    // Before anything is measured: the load would be this program's own.
    let machine = Machine::read();
    match run(quick, &calls) {
        Ok(report) => {
            println!("{machine}\n");
            if quick {
                println!("**Small inputs and few rounds: these are no figures to keep.**\n");
            }
            if !cfg!(feature = "proved") {
                println!("**The plain implementation stands in for the proved library: these are no figures.**\n");
            }
            println!("{report}");
        }
        Err(error) => {
            eprintln!("bench: {error}");
            exit(1)
        }
    }
}

fn run(quick: bool, calls: &[String]) -> Result<Report, Box<dyn Error>> {
    let wanted = |call: &str| calls.iter().any(|wanted| wanted == call);
    let setup = Setup::new(quick)?;
    let mut report = Report::default();
    let inputs = check::inputs(&setup)?;
    if wanted("check") {
        check::measure(&setup, &inputs, &mut report)?;
    }
    if wanted("marks") {
        marks::measure(&setup, &mut report)?;
    }
    if wanted("profile") {
        profile::measure(&setup, &mut report)?;
    }
    if wanted("copies") {
        copies::measure(&setup, &mut report)?;
    }
    if wanted("mend") {
        mend::measure(&setup, &mut report)?;
    }
    if wanted("survey") {
        survey::measure(&setup, &inputs[2], &mut report)?;
    }
    if wanted("lookup") {
        lookup::measure(&setup, &inputs[1], &mut report)?;
    }
    if wanted("chain") {
        lookup::measure_chain(&setup, &mut report)?;
    }
    if wanted("collapse") {
        collapse::measure(&setup, &mut report)?;
    }
    if wanted("moves") {
        moves::measure(&setup, &mut report)?;
    }
    if wanted("close") {
        close::measure(&setup, &mut report)?;
    }
    if wanted("descriptor") {
        descriptor::measure(&setup, &mut report)?;
    }
    if wanted(COMMANDS) {
        commands::measure(&setup, &mut report)?;
    }
    if let Ok(start) = setup.qemu.start() {
        report.note(format!(
            "Of each time of qemu-img, {start} is its start and end alone."
        ));
    }
    Ok(report)
}

/// Every measure runs and agrees with its rivals, under an emulator too; the times are thrown away.
#[test]
fn a_quick_run_has_rows_for_every_call() -> Outcome {
    let table = run(true, &CALLS.map(String::from))?.to_string();
    for call in [
        "check",
        "check in a lent list",
        "profile",
        "check, two directories",
        "mend",
        "survey",
        "lookup",
        "chain lookup",
        "collapse",
        "move to COWD",
        "move to KDMV",
        "close",
        "descriptor",
    ] {
        assert!(table.contains(&format!("| {call} |")), "{call}");
    }
    Ok(())
}
