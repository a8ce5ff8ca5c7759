//! The tool, run by a user whom modes bind.
#![allow(dead_code)]

use crate::common::{program, Folder, TOOL};
use std::fs::{self, Permissions};
use std::os::unix::fs::PermissionsExt;
use std::os::unix::process::CommandExt;
use std::process::{Command, Stdio};

/// The user and group that root hands a run to.
pub const NOBODY: u32 = 65534;

pub fn root() -> bool {
    // SAFETY: a plain call.
    unsafe { libc::geteuid() == 0 }
}

/// A folder that this user may look into, with the tool in it: another user may not look into the place where it was built.
pub fn open_folder() -> Folder {
    let folder = Folder::new();
    mode(&folder, ".", 0o755);
    // cp copies it, since a file that this process writes may be held open by another test's child and then not run.
    let copied = Command::new("cp").arg(TOOL).arg(folder.at("tool")).status();
    assert!(copied.expect("cp").success());
    folder
}

pub fn mode(folder: &Folder, name: &str, mode: u32) {
    fs::set_permissions(folder.at(name), Permissions::from_mode(mode)).expect("a mode");
}

/// Root may write anywhere: it hands the run to another user.
pub fn by_anybody(folder: &Folder) -> Command {
    let mut command = program(&folder.at("tool").to_string_lossy());
    command.current_dir(folder.path()).stdin(Stdio::null());
    if root() {
        command.uid(NOBODY).gid(NOBODY);
    }
    command
}
