//! Runs that are held while their output is there and not whole yet.
#![allow(dead_code)]

use crate::common::{names, tool, Folder};
use std::fs;
use std::os::unix::process::CommandExt;
use std::path::Path;
use std::process::{Child, Command, Stdio};
use std::thread::sleep;
use std::time::{Duration, Instant};

/// So many sectors that writing them takes far longer than a test needs to see that it began.
pub const BIG: u64 = 1 << 21;

/// Starts a command that writes, and holds it once its unfinished output is there. Whoever started the tests may have had
/// signals ignored, as `nohup` does and shells do for what runs in the background: the tool would leave them so.
pub fn held(folder: &Folder, words: &[&str]) -> Child {
    let mut command = tool(folder.path());
    command.args(words);
    // SAFETY: plain calls, which may be made there.
    unsafe {
        command.pre_exec(|| {
            for number in 1..=64 {
                libc::signal(number, libc::SIG_DFL);
            }
            Ok(())
        });
    }
    hold(folder.path(), &mut command)
}

/// Holds a command once an unfinished output is in the folder. On a busy machine it may be done before it can be held: then
/// what it wrote is removed, and it is started again.
pub fn hold(folder: &Path, command: &mut Command) -> Child {
    let before = names(folder);
    for _ in 0..30 {
        let mut child = begun(folder, command);
        signal(&child, libc::SIGSTOP);
        if stopped(&child) && has_part(folder) {
            return child;
        }
        signal(&child, libc::SIGCONT);
        child.wait().expect("it ends");
        for name in names(folder) {
            if !before.contains(&name) {
                fs::remove_file(folder.join(name)).expect("removed");
            }
        }
    }
    panic!("it ended before it was held, each time");
}

/// Whether a child that was told to stop did so, rather than having ended before. It is not waited for.
fn stopped(child: &Child) -> bool {
    // SAFETY: all zeros is a value of this plain struct, and the child is ours and was not waited for yet.
    unsafe {
        let mut told: libc::siginfo_t = std::mem::zeroed();
        let kinds = libc::WSTOPPED | libc::WEXITED | libc::WNOWAIT;
        libc::waitid(libc::P_PID, child.id(), &mut told, kinds) == 0
            && told.si_code == libc::CLD_STOPPED
    }
}

/// Starts a command that writes, and waits until its unfinished output is there.
pub fn begun(folder: &Path, command: &mut Command) -> Child {
    let mut child = command
        .stdout(Stdio::piped())
        .stderr(Stdio::piped())
        .spawn()
        .expect("the tool starts");
    let begun = Instant::now();
    while !has_part(folder) && child.try_wait().expect("a child").is_none() {
        assert!(begun.elapsed() < Duration::from_secs(60), "no output begun");
        sleep(Duration::from_micros(200));
    }
    child
}

fn has_part(folder: &Path) -> bool {
    names(folder).iter().any(|name| name.ends_with(".part"))
}

pub fn signal(child: &Child, signal: libc::c_int) {
    // SAFETY: the child is ours and was not waited for yet.
    unsafe { libc::kill(child.id() as libc::pid_t, signal) };
}
