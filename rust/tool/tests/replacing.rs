//! `--force`: what is replaced, what is not, and what stays of it.

#[path = "common/anybody.rs"]
mod anybody;
mod common;

use anybody::{by_anybody, mode, open_folder, root, NOBODY};
use common::{emulated, run, tool, Folder, Ran};
use std::ffi::CString;
use std::fs::{self, Metadata};
use std::os::unix::ffi::OsStrExt;
use std::os::unix::fs::{MetadataExt, PermissionsExt};
use std::process::Command;

const CHAIN: [&str; 3] = ["tool-base.vmdk", "tool-middle.vmdk", "tool-top.vmdk"];

/// Each command that writes, with its output last.
fn writers() -> Vec<Vec<&'static str>> {
    vec![
        vec!["read", CHAIN[0], "2", "--force", "-o"],
        vec!["normal", CHAIN[0], "--force", "-o"],
        vec!["mend", CHAIN[0], "--good", "redundant", "--force", "-o"],
        vec!["move", CHAIN[0], "--force", "-o"],
        [&["collapse"], &CHAIN[..], &["--force", "-o"]].concat(),
    ]
}

fn facts(folder: &Folder, name: &str) -> Metadata {
    fs::symlink_metadata(folder.at(name)).expect("a file")
}

fn give(folder: &Folder, name: &str, user: u32) {
    let path = path_of(folder, name);
    // SAFETY: a string that ends in a zero byte.
    let status = unsafe { libc::chown(path.as_ptr(), user, user) };
    assert_eq!(status, 0, "chown");
}

#[test]
fn the_mode_stays() {
    for words in writers() {
        for kept in [0o600, 0o640, 0o664, 0o755] {
            let folder = Folder::new().with(&CHAIN);
            fs::write(folder.at("out"), "old").expect("written");
            mode(&folder, "out", kept);
            run(folder.path(), &[&words[..], &["out"]].concat()).well();
            let facts = facts(&folder, "out");
            assert_eq!(facts.permissions().mode() & 0o7777, kept);
            assert!(facts.len() > 3);
        }
    }
}

#[test]
fn owner_and_group_stay_where_that_is_allowed() {
    if !root() {
        println!("NOT RUN: an owner that stays, since only root may give files away");
        return;
    }
    for words in writers() {
        let folder = Folder::new().with(&CHAIN);
        fs::write(folder.at("out"), "old").expect("written");
        give(&folder, "out", NOBODY);
        mode(&folder, "out", 0o4750);
        run(folder.path(), &[&words[..], &["out"]].concat()).well();
        let facts = facts(&folder, "out");
        assert_eq!((facts.uid(), facts.gid()), (NOBODY, NOBODY));
        assert_eq!(facts.permissions().mode() & 0o7777, 0o4750);
    }
}

/// Somebody else's file that all may write is replaced by the user's own, without what it lent of its owner's rights.
#[test]
fn an_owner_that_cannot_stay_takes_its_rights_along() {
    if !root() {
        println!("NOT RUN: another owner's file, since only root can make one");
        return;
    }
    let folder = open_folder().with(&CHAIN);
    give(&folder, ".", NOBODY);
    fs::write(folder.at("out"), "old").expect("written");
    mode(&folder, "out", 0o6777);
    let ran = by_anybody(&folder).args(&writers()[1]).arg("out").output();
    Ran::of(ran.expect("the tool starts")).well();
    let facts = facts(&folder, "out");
    assert_eq!(facts.uid(), NOBODY);
    assert_eq!(facts.permissions().mode() & 0o7777, 0o777);
}

const ACCESS_LIST: &[u8] = b"system.posix_acl_access\0";
const LIST_FOR_NEW_FILES: &[u8] = b"system.posix_acl_default\0";

/// An access list as the system stores it: the owner may all, user 7 may read and write, the group nothing.
fn list() -> Vec<u8> {
    let entries = [
        (1u16, 7u16, u32::MAX),
        (2, 6, 7),
        (4, 0, u32::MAX),
        (16, 6, u32::MAX),
        (32, 0, u32::MAX),
    ];
    let mut list = 2u32.to_le_bytes().to_vec();
    for (tag, rights, who) in entries {
        list.extend(tag.to_le_bytes());
        list.extend(rights.to_le_bytes());
        list.extend(who.to_le_bytes());
    }
    list
}

fn path_of(folder: &Folder, name: &str) -> CString {
    CString::new(folder.at(name).as_os_str().as_bytes()).expect("a path")
}

fn put_list(folder: &Folder, name: &str, kind: &[u8]) -> bool {
    let (path, list) = (path_of(folder, name), list());
    // SAFETY: strings that end in a zero byte, and bytes of the length that is told.
    let status = unsafe {
        let (kind, bytes) = (kind.as_ptr().cast(), list.as_ptr().cast());
        libc::setxattr(path.as_ptr(), kind, bytes, list.len(), 0)
    };
    status == 0
}

fn list_of(folder: &Folder, name: &str) -> Option<Vec<u8>> {
    let mut list = vec![0; 4096];
    let path = path_of(folder, name);
    // SAFETY: strings that end in a zero byte, and room of the length that is told.
    let length = unsafe {
        let (kind, bytes) = (ACCESS_LIST.as_ptr().cast(), list.as_mut_ptr().cast());
        libc::getxattr(path.as_ptr(), kind, bytes, list.len())
    };
    list.truncate(usize::try_from(length).ok()?);
    Some(list)
}

/// With the mode alone, the group could write what it could not even read.
#[test]
fn an_access_list_stays_and_none_comes_from_the_folder() {
    for words in writers() {
        let folder = Folder::new().with(&CHAIN);
        for out in ["with", "without"] {
            fs::write(folder.at(out), "old").expect("written");
            mode(&folder, out, 0o640);
        }
        let known = put_list(&folder, "with", ACCESS_LIST);
        if !known || !put_list(&folder, ".", LIST_FOR_NEW_FILES) {
            println!("NOT RUN: access lists, which the file system here does not know");
            return;
        }
        for (out, kept) in [("with", Some(list())), ("without", None)] {
            run(folder.path(), &[&words[..], &[out]].concat()).well();
            assert_eq!(list_of(&folder, out), kept);
            let facts = facts(&folder, out);
            let bits = if kept.is_some() { 0o760 } else { 0o640 };
            assert_eq!(facts.permissions().mode() & 0o7777, bits);
        }
    }
}

#[test]
fn what_may_not_be_written_is_not_replaced() {
    let folder = open_folder().with(&CHAIN);
    if root() {
        give(&folder, ".", NOBODY);
    }
    for kept in [0o444, 0o000] {
        fs::write(folder.at("out"), "mine").expect("written");
        if root() {
            give(&folder, "out", NOBODY);
        }
        mode(&folder, "out", kept);
        for words in writers() {
            let ran = by_anybody(&folder).args(&words).arg("out").output();
            Ran::of(ran.expect("the tool starts"))
                .ill("out: exists and may not be replaced: Permission denied");
        }
        mode(&folder, "out", 0o644);
        assert_eq!(fs::read(folder.at("out")).expect("the file"), b"mine");
    }
}

/// A folder as /tmp is: there a file that all may write is still its owner's to replace.
#[test]
fn a_folder_where_only_owners_replace() {
    if !root() {
        println!("NOT RUN: a sticky folder, since only root can put another user's file there");
        return;
    }
    let folder = open_folder().with(&CHAIN);
    fs::create_dir(folder.at("sticky")).expect("a folder");
    mode(&folder, "sticky", 0o1777);
    fs::write(folder.at("sticky/out"), "mine").expect("written");
    mode(&folder, "sticky/out", 0o666);
    for words in writers() {
        let ran = by_anybody(&folder).args(&words).arg("sticky/out").output();
        Ran::of(ran.expect("the tool starts"))
            .ill("sticky/out: exists and may not be replaced: Operation not permitted");
    }
    assert_eq!(
        fs::read(folder.at("sticky/out")).expect("the file"),
        b"mine"
    );
}

#[test]
fn a_file_that_is_read_is_never_replaced() {
    let folder = Folder::new().with(&CHAIN);
    fs::hard_link(folder.at(CHAIN[0]), folder.at("linked")).expect("a link");
    let before = fs::read(folder.at(CHAIN[0])).expect("the file");
    let away = format!("./{}", CHAIN[0]);
    for words in writers() {
        for out in [CHAIN[0], &away, "linked"] {
            let told = format!("{out}: is one of the files that are read");
            run(folder.path(), &[&words[..], &[out]].concat()).ill(&told);
        }
    }
    assert_eq!(fs::read(folder.at(CHAIN[0])).expect("the file"), before);
    assert_eq!(folder.names().len(), 4);
}

/// Tells by a file what is synced and renamed, in order.
const SPY: &str = r#"
#define _GNU_SOURCE
#include <dlfcn.h>
#include <fcntl.h>
#include <stdio.h>
#include <stdlib.h>
#include <unistd.h>
static void tell(const char *what, int file) {
    char link[64], path[4096] = "";
    snprintf(link, sizeof link, "/proc/self/fd/%d", file);
    if (file >= 0) readlink(link, path, sizeof path - 1);
    int to = open(getenv("SPY"), O_WRONLY | O_APPEND | O_CREAT, 0600);
    dprintf(to, "%s %s\n", what, path);
    close(to);
}
int fsync(int file) {
    tell("sync", file);
    return ((int (*)(int))dlsym(RTLD_NEXT, "fsync"))(file);
}
int renameat(int a, const char *b, int c, const char *d) {
    tell("rename", -1);
    return ((int (*)(int, const char *, int, const char *))dlsym(RTLD_NEXT, "renameat"))(a, b, c, d);
}
"#;

#[test]
fn the_file_is_synced_then_renamed_then_its_folder_synced() {
    if emulated() {
        println!("NOT RUN: the order of syncs, since an emulator loads no library of ours");
        return;
    }
    let folder = Folder::new().with(&CHAIN);
    fs::write(folder.at("spy.c"), SPY).expect("written");
    let mut compiler = Command::new("cc");
    compiler.args(["-w", "-shared", "-fPIC", "-o", "spy.so", "spy.c", "-ldl"]);
    let made = compiler.current_dir(folder.path()).status();
    assert!(made.expect("the C compiler that Rust links with").success());
    fs::create_dir(folder.at("in")).expect("a folder");
    let inside = fs::canonicalize(folder.at("in")).expect("a path");
    for words in writers() {
        fs::remove_file(folder.at("told")).unwrap_or(());
        let ran = tool(folder.path())
            .args(&words)
            .arg("in/out")
            .env("LD_PRELOAD", folder.at("spy.so"))
            .env("SPY", folder.at("told"))
            .output();
        Ran::of(ran.expect("the tool starts")).well();
        let told = fs::read_to_string(folder.at("told")).expect("what was told");
        let lines: Vec<&str> = told.lines().collect();
        let part = format!("sync {}/.out.", inside.display());
        assert!(lines[0].starts_with(&part), "{told}");
        assert_eq!(
            lines[1..],
            ["rename ", &format!("sync {}", inside.display())]
        );
    }
}
