//! Signals: whatever ends the tool, nothing unfinished is left, and who waits for it sees what ended it.

mod common;
#[path = "common/held.rs"]
mod held;
#[path = "common/image.rs"]
mod image;

use common::{emulated, names, run, tool, Folder, TOOL};
use held::{begun, held, hold, signal, BIG};
use image::Image;
use std::fs;
use std::os::unix::process::{CommandExt, ExitStatusExt};
use std::process::{Child, Command, ExitStatus, Stdio};
use std::thread::sleep;
use std::time::Duration;

/// Enough to be held, and soon done.
const SMALL: u64 = 1 << 18;

const CHAIN: [&str; 3] = ["tool-base.vmdk", "tool-middle.vmdk", "tool-top.vmdk"];

/// Their usual end is not the process's, or they can't be caught.
const OTHERS: [libc::c_int; 9] = [
    libc::SIGKILL,
    libc::SIGSTOP,
    libc::SIGTSTP,
    libc::SIGTTIN,
    libc::SIGTTOU,
    libc::SIGCHLD,
    libc::SIGCONT,
    libc::SIGURG,
    libc::SIGWINCH,
];

/// The tool goes on after these: a limit on files is told as an error, and the C library keeps two.
const PASSED_OVER: [libc::c_int; 3] = [libc::SIGXFSZ, 32, 33];

/// An emulator has uses of its own for some.
fn ending() -> Vec<libc::c_int> {
    if emulated() {
        println!("NOT RUN: signals but HUP, INT, QUIT, TERM, since the tool runs by an emulator");
        return vec![libc::SIGHUP, libc::SIGINT, libc::SIGQUIT, libc::SIGTERM];
    }
    (1..=64)
        .filter(|signal| !OTHERS.contains(signal) && !PASSED_OVER.contains(signal))
        .collect()
}

fn ended(child: Child) -> ExitStatus {
    child.wait_with_output().expect("it ends").status
}

/// Sends signals to a run that is held, lets it go on, and says how it ended.
fn sent(child: Child, signals: &[libc::c_int]) -> ExitStatus {
    for number in signals {
        signal(&child, *number);
    }
    signal(&child, libc::SIGCONT);
    ended(child)
}

#[test]
fn whatever_ends_the_tool_leaves_nothing() {
    let folder = Folder::new();
    Image::full(&folder.at("disk"), BIG);
    for number in ending() {
        let child = held(&folder, &["normal", "disk", "-o", "out"]);
        let status = sent(child, &[number]);
        assert_eq!(status.signal(), Some(number));
        assert_eq!(folder.names(), ["disk"], "after signal {number}");
    }
}

/// strace holds the tool where its output is there and nothing of it is noted yet.
#[test]
fn a_signal_at_the_moment_an_output_is_made() {
    let folder = Folder::new();
    Image::full(&folder.at("disk"), SMALL);
    for number in [libc::SIGTERM, libc::SIGABRT] {
        let mut command = Command::new("sh");
        let strace = "exec strace -f -qq -o /dev/null -e trace=openat -e inject=openat:delay_exit=100000 \"$@\"";
        command.args(["-c", strace, "sh", TOOL, "normal", "disk", "-o", "out"]);
        // Each folder in which the loader looks would be held too.
        command.env_remove("LD_LIBRARY_PATH");
        let child = begun(folder.path(), command.current_dir(folder.path()));
        let part = folder
            .names()
            .into_iter()
            .find(|name| name.ends_with(".part"));
        let process = part
            .as_deref()
            .and_then(|part| part.strip_prefix(".out.")?.split('-').next()?.parse().ok());
        // SAFETY: the tool is held for longer than it takes to come here.
        let sent = process.map(|process| unsafe { libc::kill(process, number) });
        let status = ended(child);
        if sent.is_none() {
            println!("NOT RUN: strace cannot hold the tool here");
            return;
        }
        assert_eq!((sent, status.signal()), (Some(0), Some(number)));
        assert_eq!(folder.names(), ["disk"], "after signal {number}");
    }
}

#[test]
fn a_collapse_of_three_leaves_nothing() {
    let folder = Folder::new();
    Image::full(&folder.at("disk"), BIG);
    Image::full(&folder.at("middle"), BIG);
    Image::new(&folder.at("top"), BIG);
    let words = ["collapse", "disk", "middle", "top", "-o", "out"];
    for number in [libc::SIGINT, libc::SIGTERM] {
        // Into the second pair, or near it: where the tool is done by then, sooner.
        for wait in [300, 100, 30, 10, 0] {
            let child = held(&folder, &words);
            if wait > 0 {
                signal(&child, libc::SIGCONT);
                sleep(Duration::from_millis(wait));
            }
            let status = sent(child, &[number]);
            if wait > 0 && status.success() {
                fs::remove_file(folder.at("out")).expect("the output");
                continue;
            }
            assert_eq!(status.signal(), Some(number));
            assert_eq!(folder.names(), ["disk", "middle", "top"]);
            break;
        }
    }
}

#[test]
fn a_second_signal_leaves_nothing() {
    let folder = Folder::new();
    Image::full(&folder.at("disk"), BIG);
    let pairs = [
        [libc::SIGTERM, libc::SIGINT],
        [libc::SIGINT, libc::SIGHUP],
        [libc::SIGTERM, libc::SIGTERM],
    ];
    for round in 0..60 {
        let pair = pairs[round % 3];
        let child = held(&folder, &["normal", "disk", "-o", "out"]);
        let status = if round < 30 {
            sent(child, &pair)
        } else {
            signal(&child, pair[0]);
            signal(&child, libc::SIGCONT);
            sleep(Duration::from_micros(round as u64));
            signal(&child, pair[1]);
            ended(child)
        };
        let by = status.signal();
        assert!(by == Some(pair[0]) || by == Some(pair[1]), "{status}");
        assert_eq!(folder.names(), ["disk"], "after {pair:?}");
    }
}

/// The name of the folder may become another one, or be gone, before the end.
#[test]
fn a_folder_that_is_moved_meanwhile() {
    let folder = Folder::new();
    Image::full(&folder.at("disk"), BIG);
    for number in [libc::SIGTERM, libc::SIGCONT] {
        fs::create_dir(folder.at("in")).expect("a folder");
        let mut command = tool(folder.path());
        command.args(["normal", "disk", "-o", "in/out"]);
        let child = hold(&folder.at("in"), &mut command);
        fs::rename(folder.at("in"), folder.at("moved")).expect("moved");
        let status = sent(child, &[number]);
        let left = names(&folder.at("moved"));
        if number == libc::SIGTERM {
            assert_eq!((status.signal(), left.len()), (Some(number), 0));
        } else {
            assert!(status.success() && left == ["out"], "{status}: {left:?}");
        }
        fs::remove_dir_all(folder.at("moved")).expect("removed");
    }
}

/// A run that was killed may have left its part under the name that this one would take first.
#[test]
fn a_part_of_another_run_is_left_alone() {
    let folder = Folder::new().with(&CHAIN);
    let mut command = Command::new("sh");
    // The shell's number is the tool's, which takes its place.
    let script = "echo theirs >.out.$$-0.part; exec \"$0\" normal tool-base.vmdk -o out";
    command
        .args(["-c", script, TOOL])
        .current_dir(folder.path());
    if emulated() {
        println!("NOT RUN: a part of another run, since the emulator starts the tool");
        return;
    }
    assert!(command.output().expect("a shell").status.success());
    let left = folder.names();
    assert!(left[0].ends_with("-0.part") && left[1] == "out", "{left:?}");
    let theirs = fs::read(folder.at(&left[0])).expect("their part");
    assert_eq!(theirs, b"theirs\n");
}

/// A command that was told to ignore a signal before the tool's start.
fn deaf(folder: &Folder, number: libc::c_int) -> Child {
    let mut command = tool(folder.path());
    command.args(["normal", "disk", "-o", "out", "--force"]);
    // SAFETY: a plain call, which may be made there.
    unsafe {
        command.pre_exec(move || {
            libc::signal(number, libc::SIG_IGN);
            Ok(())
        });
    }
    hold(folder.path(), &mut command)
}

#[test]
fn what_is_ignored_at_the_start_stays_so() {
    let folder = Folder::new();
    Image::full(&folder.at("disk"), SMALL);
    for number in ending() {
        let status = sent(deaf(&folder, number), &[number]);
        assert!(status.success(), "signal {number}: {status}");
        assert_eq!(folder.names(), ["disk", "out"]);
    }
}

#[test]
fn what_ends_no_process_does_not_end_the_tool() {
    let folder = Folder::new();
    Image::full(&folder.at("disk"), SMALL);
    let harmless = [libc::SIGCHLD, libc::SIGURG, libc::SIGWINCH];
    let own = if emulated() {
        &[][..]
    } else {
        &PASSED_OVER[..]
    };
    for number in harmless.iter().chain(own) {
        let child = held(&folder, &["normal", "disk", "-o", "out", "--force"]);
        let status = sent(child, &[*number]);
        assert!(status.success(), "signal {number}: {status}");
        assert_eq!(folder.names(), ["disk", "out"]);
    }
}

/// Whenever it comes: before the output is begun, while it is written, when it gets its name, when all is done.
#[test]
fn a_signal_at_any_time() {
    let commands = [
        vec!["read", "tool-base.vmdk", "2", "-o", "out"],
        vec!["normal", "tool-base.vmdk", "-o", "out"],
        vec!["mend", "tool-base.vmdk", "--good", "primary", "-o", "out"],
        vec!["move", "tool-base.vmdk", "-o", "out"],
        [&["collapse"], &CHAIN[..], &["-o", "out"]].concat(),
    ];
    for words in commands {
        let folder = Folder::new().with(&CHAIN);
        run(folder.path(), &words).well();
        let whole = fs::read(folder.at("out")).expect("the output");
        for wait in 0..60 {
            fs::remove_file(folder.at("out")).unwrap_or(());
            let mut command = tool(folder.path());
            command.args(&words).stdout(Stdio::null());
            let child = command.spawn().expect("the tool starts");
            sleep(Duration::from_micros(100 * wait));
            signal(&child, libc::SIGTERM);
            ended(child);
            let mut left = folder.names();
            left.retain(|name| !CHAIN.contains(&name.as_str()));
            if left == ["out"] {
                assert_eq!(fs::read(folder.at("out")).expect("the output"), whole);
            } else {
                assert!(left.is_empty(), "left: {left:?}");
            }
        }
    }
}
