//! `digest --list` with lists that are no plain files, or no lists, and on a big disk.

mod common;
#[path = "common/image.rs"]
mod image;

use common::{emulated, run, run_soon, tool, Folder, Ran};
use image::Image;
use std::fs;
use std::io::Write;
use std::process::{Command, Stdio};

const IMAGE: &str = "tool-base.vmdk";

/// The digest of a sector of zeros.
const ZEROS: &str = "076a27c79e5ace2a3d47f9dd2e83e4ff6ea8872b3c2218f66c92b89b55f36560";

/// The list does not hold: these are the lines on standard output, and nothing is on standard error.
fn fails(ran: &Ran, lines: &[&str]) {
    assert_eq!((ran.status, ran.err.as_str()), (Some(3), ""));
    assert_eq!(ran.text().lines().collect::<Vec<_>>(), lines);
}

/// An image, a line without end, a zero byte: told at the first line, and nothing after it is read.
#[test]
fn what_is_no_text_is_told_at_its_first_line() {
    let folder = Folder::new().with(&[IMAGE]);
    let image = fs::read(folder.at(IMAGE)).expect("a sample");
    let long = vec![b'1'; 1 << 20];
    let wide = [b"\xff\xfe0\0 \0".as_slice(), b"1\0\n\0"].concat();
    let zero = [b"1000 \0".as_slice(), ZEROS.as_bytes()].concat();
    for list in [&image[..], &long, &wide, &zero] {
        fs::write(folder.at("list"), list).expect("written");
        fails(
            &run(folder.path(), &["digest", IMAGE, "--list", "list"]),
            &[
                "list: line 1 is no line of text, so this is no list, and the rest is not looked at",
                "list: 1 of 1 lines fail; 2048 of the disk's 2048 sectors are left out",
            ],
        );
    }
}

#[test]
fn a_list_on_standard_input() {
    let folder = Folder::new().with(&[IMAGE]);
    let mut child = tool(folder.path())
        .args(["digest", IMAGE, "--list", "-"])
        .stdin(Stdio::piped())
        .stdout(Stdio::piped())
        .stderr(Stdio::piped())
        .spawn()
        .expect("the tool starts");
    let mut input = child.stdin.take().expect("a pipe");
    writeln!(input, "1000 {ZEROS}\n0 {ZEROS}").expect("written");
    drop(input);
    let ran = Ran::of(child.wait_with_output().expect("it ends"));
    assert_eq!(ran.status, Some(3));
    let text = ran.text();
    assert!(
        text.starts_with("-: line 2: sector 0 differs: the list has 076a"),
        "{text}"
    );
    assert!(text.ends_with("-: 1 of 2 lines fail; 2046 of the disk's 2048 sectors are left out\n"));
}

#[test]
fn a_list_that_cannot_be_read_is_status_4() {
    let folder = Folder::new().with(&[IMAGE]);
    for (list, told) in [
        (".", ".: cannot be read: Is a directory"),
        ("nowhere", "nowhere: cannot be opened: No such file"),
    ] {
        run(folder.path(), &["digest", IMAGE, "--list", list]).ill(told);
    }
}

/// Nobody writes to it: it is not waited for.
#[test]
fn a_named_pipe_without_a_writer_reads_as_empty() {
    let folder = Folder::new().with(&[IMAGE]);
    let made = Command::new("mkfifo").arg(folder.at("pipe")).status();
    assert!(made.expect("mkfifo").success());
    fails(
        &run_soon(folder.path(), &["digest", IMAGE, "--list", "pipe"]),
        &["pipe: there is no line to compare with; 2048 of the disk's 2048 sectors are left out"],
    );
}

/// A device without end is told by its first line.
#[test]
fn a_device_is_no_list() {
    let folder = Folder::new().with(&[IMAGE]);
    let ran = run_soon(folder.path(), &["digest", IMAGE, "--list", "/dev/zero"]);
    assert_eq!(ran.status, Some(3));
    assert!(ran
        .text()
        .starts_with("/dev/zero: line 1 is no line of text"));
}

/// Sectors are counted over a whole disk, and only what is named costs memory.
#[test]
fn the_ends_of_a_big_disk() {
    let sectors: u64 = if emulated() { 1 << 27 } else { 1 << 31 };
    let folder = Folder::new();
    Image::new(&folder.at("disk"), sectors);
    let (last, left) = (sectors - 1, sectors - 3);
    let list = format!(
        "{last} {ZEROS}\n0 {ZEROS}\n{} {ZEROS}\n{last} {ZEROS}\n",
        last / 2
    );
    fs::write(folder.at("list"), list).expect("written");
    fails(
        &run(folder.path(), &["digest", "disk", "--list", "list"]),
        &[
            &format!("list: line 4: sector {last} is named by a line before"),
            &format!(
                "list: 1 of 4 lines fail; {left} of the disk's {sectors} sectors are left out"
            ),
        ],
    );
}

/// More than a pipe holds is written first, so that the tool has opened the image by then.
#[test]
fn an_image_that_changes_while_its_list_is_read() {
    let sectors = 1 << 14;
    let folder = Folder::new();
    let image = Image::new(&folder.at("disk"), sectors);
    let mut child = tool(folder.path())
        .args(["digest", "disk", "--list", "-", "--json"])
        .stdin(Stdio::piped())
        .stdout(Stdio::piped())
        .stderr(Stdio::piped())
        .spawn()
        .expect("the tool starts");
    let list: String = (0..sectors)
        .map(|sector| format!("{sector} {ZEROS}\n"))
        .collect();
    let mut input = child.stdin.take().expect("a pipe");
    input.write_all(list.as_bytes()).expect("written");
    image.put(512 * image.start - 1, b"x");
    input.write_all(b"0 differs\n").expect("written");
    drop(input);
    let ran = Ran::of(child.wait_with_output().expect("it ends"));
    ran.ill("disk: the file changed while it was read");
    assert!(ran
        .text()
        .starts_with("{\"failed\":\"disk: the file changed"));
}
