//! Outputs: whole under their name, or not there at all.

#[path = "common/anybody.rs"]
mod anybody;
mod common;

use anybody::{by_anybody, mode, open_folder};
use common::{emulated, names, run, Folder, Ran, TOOL};
use std::fs;
use std::os::unix::fs::symlink;
use std::path::Path;
use std::process::{Command, Stdio};

const CHAIN: [&str; 3] = ["tool-base.vmdk", "tool-middle.vmdk", "tool-top.vmdk"];

/// Each command that writes, with its output last.
fn writers() -> Vec<Vec<&'static str>> {
    let collapse = [&["collapse"], &CHAIN[..], &["-o"]].concat();
    vec![
        vec!["read", "tool-base.vmdk", "2", "-o"],
        vec!["normal", "tool-base.vmdk", "-o"],
        vec!["mend", "tool-base.vmdk", "--good", "primary", "-o"],
        collapse,
    ]
}

#[test]
fn an_existing_file_is_replaced_only_by_force() {
    for words in writers() {
        let folder = Folder::new().with(&CHAIN);
        fs::write(folder.at("out"), "mine").expect("written");
        let words = [&words[..], &["out"]].concat();
        run(folder.path(), &words).ill("out: exists already; --force replaces it");
        assert_eq!(fs::read(folder.at("out")).expect("the file"), b"mine");
        let forced = [&words[..], &["--force"]].concat();
        run(folder.path(), &forced).well();
        assert_ne!(fs::read(folder.at("out")).expect("the file"), b"mine");
        assert_eq!(folder.names(), ["out", CHAIN[0], CHAIN[1], CHAIN[2]]);
    }
}

#[test]
fn what_is_no_plain_file_is_never_replaced() {
    let folder = Folder::new().with(&CHAIN);
    fs::create_dir(folder.at("folder")).expect("a folder");
    symlink("tool-base.vmdk", folder.at("link")).expect("a link");
    for words in writers() {
        for out in ["folder", "link", "/dev/null"] {
            let words = [&words[..], &[out, "--force"]].concat();
            run(folder.path(), &words).ill("not a plain file");
        }
    }
    assert_eq!(
        folder.names(),
        ["folder", "link", CHAIN[0], CHAIN[1], CHAIN[2]]
    );
}

#[test]
fn a_folder_that_is_not_there_or_no_folder() {
    let folder = Folder::new().with(&CHAIN);
    for words in writers() {
        for out in ["nowhere/out", "tool-base.vmdk/out", "/proc/out"] {
            let words = [&words[..], &[out]].concat();
            run(folder.path(), &words).ill("cannot be created");
        }
        for out in ["..", "out/", "out/.", "/"] {
            let told = format!("{out}: is not the name of a file");
            run(folder.path(), &[&words[..], &[out]].concat()).ill(&told);
        }
    }
    assert_eq!(folder.names(), CHAIN);
}

/// The name beside it, which is longer, must not be in the way.
#[test]
fn a_name_as_long_as_names_can_be() {
    let folder = Folder::new().with(&CHAIN);
    let (longest, longer) = ("n".repeat(255), "n".repeat(256));
    for words in writers() {
        run(
            folder.path(),
            &[&words[..], &[&longest, "--force"]].concat(),
        )
        .well();
        run(folder.path(), &[&words[..], &[&longer]].concat()).ill("cannot be created");
    }
    assert_eq!(folder.names()[0], longest);
    assert_eq!(folder.names().len(), 4);
}

/// A target that cannot be made is told though the image would be refused too: nobody waits for that.
#[test]
fn a_bad_target_is_told_before_the_work() {
    let folder = Folder::new().with(&CHAIN);
    fs::write(folder.at("none"), [7; 4096]).expect("written");
    fs::write(folder.at("mine"), "mine").expect("written");
    let commands = [
        &["read", "none", "0", "-o"][..],
        &["read", "tool-base.vmdk", "2048", "-o"][..],
        &["normal", "none", "-o"][..],
        &["mend", "none", "--good", "redundant", "-o"][..],
        &["move", "none", "-o"][..],
        &["close", "none", "-o"][..],
        &["collapse", "none", "none", "-o"][..],
        &["collapse", CHAIN[0], CHAIN[1], "none", "-o"][..],
    ];
    for words in commands {
        for (out, told) in [
            ("nowhere/out", "nowhere/out: cannot be created"),
            ("mine", "mine: exists already"),
            ("out/", "out/: is not the name of a file"),
        ] {
            run(folder.path(), &[words, &[out]].concat()).ill(told);
        }
    }
    assert_eq!(folder.names().len(), 5);
}

#[test]
fn a_folder_that_may_not_be_written() {
    let folder = open_folder().with(&CHAIN);
    fs::create_dir(folder.at("closed")).expect("a folder");
    mode(&folder, "closed", 0o555);
    for words in writers() {
        let ran = by_anybody(&folder).args(&words).arg("closed/out").output();
        Ran::of(ran.expect("the tool starts"))
            .ill("closed/out: cannot be created: Permission denied");
    }
    assert_eq!(names(&folder.at("closed")), Vec::<String>::new());
}

/// Runs the tool by a shell that first sets something up.
fn by_shell(folder: &Path, first: &str, words: &[&str]) -> Ran {
    let mut command = Command::new("sh");
    let start = match std::env::var("ANHKHOVET_RUNNER") {
        Ok(runner) => format!("{first} && exec {runner} \"$0\" \"$@\""),
        Err(_) => format!("{first} && exec \"$0\" \"$@\""),
    };
    command.arg("-c").arg(start).arg(TOOL).args(words);
    command.current_dir(folder).stdin(Stdio::null());
    Ran::of(command.output().expect("a shell"))
}

/// The check alone wants over 1 MiB.
#[test]
fn a_shell_that_leaves_little_stack() {
    if emulated() {
        println!("NOT RUN: a small stack, since it would be the emulator's");
        return;
    }
    let folder = Folder::new().with(&CHAIN);
    for limit in ["ulimit -s 1024", "ulimit -s 256"] {
        for words in writers() {
            let words = [&words[..], &["out", "--force"]].concat();
            by_shell(folder.path(), limit, &words).well();
        }
        for words in [["check"], ["map"], ["digest"]] {
            by_shell(folder.path(), limit, &[&words[..], &[CHAIN[0]]].concat()).well();
        }
    }
}

#[test]
fn a_limit_on_the_length_of_files() {
    for words in writers() {
        let folder = Folder::new().with(&CHAIN);
        let words = [&words[..], &["out"]].concat();
        // In sectors of 512 bytes. An emulator writes a short file itself; the one sector of `read` is then below any limit.
        let limit = match words[0] {
            "read" if emulated() => continue,
            "read" => "ulimit -f 0",
            _ => "ulimit -f 100",
        };
        by_shell(folder.path(), limit, &words).ill("out: cannot be written");
        assert_eq!(folder.names(), CHAIN);
    }
}

/// A file system of 64 KiB, in a mount namespace of the run's own, and what is left on it. Nothing where mounting is not
/// allowed.
fn small_disk(folder: &Folder, first: &str, words: &[&str]) -> Option<Ran> {
    let runner = std::env::var("ANHKHOVET_RUNNER").unwrap_or_default();
    let script = format!(
        "mount -t tmpfs -o size=64k none small || exit 99; {first}\n{runner} \"$0\" \"$@\"; status=$?; ls -A small; exit $status"
    );
    for flags in [&["-m"][..], &["-r", "-m"][..]] {
        let mut command = Command::new("unshare");
        command
            .args(flags)
            .args(["sh", "-c", &script, TOOL])
            .args(words);
        command.current_dir(folder.path()).stdin(Stdio::null());
        if let Ok(output) = command.output() {
            let ran = Ran::of(output);
            let mounted = !matches!(ran.status, Some(99) | Some(126) | Some(127));
            if mounted && !ran.err.contains("unshare:") {
                return Some(ran);
            }
        }
    }
    println!("NOT RUN: a full disk, since no file system may be mounted here");
    None
}

#[test]
fn a_full_disk() {
    let folder = Folder::new().with(&CHAIN);
    fs::create_dir(folder.at("small")).expect("a folder");
    for words in writers() {
        let words = [&words[..], &["small/out"]].concat();
        // A sector fits on an empty disk of this size, an image does not.
        let (first, told, left) = match words[0] {
            "read" => (
                "head -c 65536 /dev/zero >small/all",
                "small/out: cannot be",
                "all\n",
            ),
            _ => (":", "small/out: the disk is full", ""),
        };
        if let Some(ran) = small_disk(&folder, first, &words) {
            ran.ill(told);
            assert_eq!(ran.text(), left, "something else is left on the disk");
        }
    }
}
