//! Names that lead elsewhere or nowhere, as the only image and as one of several: told at once, and nothing is left.

mod common;

use common::{run_soon, Folder};
use std::fs;
use std::os::unix::fs::symlink;

const IMAGE: &str = "tool-base.vmdk";

/// Each command that reads, with the odd file as its only image and as the second one.
fn readers(odd: &str) -> Vec<Vec<&str>> {
    vec![
        vec!["sector", odd, "0"],
        vec!["sector", IMAGE, odd, "0"],
        vec!["explain", odd, "0"],
        vec!["explain", IMAGE, odd, "0"],
        vec!["read", odd, "0"],
        vec!["map", odd],
        vec!["map", IMAGE, odd],
        vec!["digest", odd],
        vec!["digest", odd, "--list", "list"],
        vec!["describe", odd],
        vec!["normal", odd, "-o", "out"],
        vec!["mend", odd, "--good", "primary"],
        vec!["mend", odd, "--good", "primary", "-o", "out"],
        vec!["move", odd, "-o", "out"],
        vec!["close", odd, "-o", "out"],
        vec!["collapse", odd, IMAGE, "-o", "out"],
        vec!["collapse", IMAGE, odd, "-o", "out"],
        vec!["collapse", IMAGE, IMAGE, odd, "-o", "out"],
    ]
}

/// Every command tells so, with status 4, and leaves nothing.
fn told(folder: &Folder, odd: &str, words: &str) {
    let before = folder.names();
    let wanted = format!("{odd}: {words}");
    for reader in readers(odd) {
        let ran = run_soon(folder.path(), &reader);
        ran.ended(4, &wanted);
        assert_eq!(ran.out, b"", "{reader:?}");
        assert_eq!(folder.names(), before, "{reader:?}");
    }
    let ran = run_soon(folder.path(), &["check", odd, IMAGE]);
    assert_eq!((ran.status, ran.err.as_str()), (Some(4), ""));
    let text = ran.text();
    assert!(
        text.starts_with(&wanted) && text.lines().count() == 2,
        "{text}"
    );
}

fn folder() -> Folder {
    let folder = Folder::new().with(&[IMAGE]);
    fs::write(folder.at("list"), "").expect("written");
    folder
}

#[test]
fn links_are_followed_to_what_they_name() {
    let folder = folder();
    symlink("/dev/tty", folder.at("device")).expect("a link");
    told(&folder, "device", "is a device and not a plain file");
    symlink("..", folder.at("above")).expect("a link");
    told(&folder, "above", "is a folder and not a plain file");
    symlink("nowhere", folder.at("dangling")).expect("a link");
    told(&folder, "dangling", "cannot be opened: No such file");
    symlink("around", folder.at("around")).expect("a link");
    told(&folder, "around", "cannot be opened: Too many levels");
    symlink(IMAGE, folder.at("image")).expect("a link");
    run_soon(folder.path(), &["check", "image"]).well();
}

#[test]
fn names_that_lead_nowhere() {
    let folder = folder();
    told(
        &folder,
        "tool-base.vmdk/odd",
        "cannot be opened: Not a directory",
    );
    let long = "x".repeat(300);
    told(&folder, &long, "cannot be opened: File name too long");
}
