//! Files that change while they are mapped: a report, never an answer, and nothing left behind.

mod common;
#[path = "common/held.rs"]
mod held;
#[path = "common/image.rs"]
mod image;

use common::{tool, Folder, Ran};
use image::{put_back, Image};
use std::io::Read;
use std::process::{Child, Stdio};

/// Enough lines to fill a pipe many times, all of grains that are holes.
const CAPACITY: u64 = 1 << 18;

/// Digests until the pipe is full, so that the tool stands still with most of its work before it.
fn begun(folder: &Folder, words: &[&str]) -> (Child, Vec<u8>) {
    let mut child = tool(folder.path())
        .args(words)
        .stdout(Stdio::piped())
        .stderr(Stdio::piped())
        .spawn()
        .expect("the tool starts");
    let mut first = vec![0; 100];
    let out = child.stdout.as_mut().expect("a pipe");
    out.read_exact(&mut first).expect("a first line");
    (child, first)
}

fn ended(begun: (Child, Vec<u8>)) -> Ran {
    let (child, mut out) = begun;
    let mut ran = Ran::of(child.wait_with_output().expect("it ends"));
    out.append(&mut ran.out);
    ran.out = out;
    ran
}

/// Each line that was printed is a right one: the disk is all zeros.
fn no_wrong_line(ran: &Ran) {
    let text = ran.text();
    let whole = text.rsplit_once('\n').map_or("", |(whole, _)| whole);
    let zeros = "076a27c79e5ace2a3d47f9dd2e83e4ff6ea8872b3c2218f66c92b89b55f36560";
    for (sector, line) in whole.lines().enumerate() {
        assert_eq!(line, format!("{sector} {zeros}"));
    }
    assert!(whole.lines().count() < CAPACITY as usize);
}

#[test]
fn cut_to_nothing() {
    let folder = Folder::new();
    let image = Image::full(&folder.at("disk"), CAPACITY);
    let digest = begun(&folder, &["digest", "disk"]);
    image.length(0);
    let ran = ended(digest);
    ran.ill("disk: the file changed while it was read");
    no_wrong_line(&ran);
}

#[test]
fn a_layer_of_a_chain_cut_to_nothing() {
    let folder = Folder::new();
    let image = Image::full(&folder.at("disk"), CAPACITY);
    Image::new(&folder.at("delta"), CAPACITY);
    let digest = begun(&folder, &["digest", "disk", "delta"]);
    image.length(0);
    let ran = ended(digest);
    ran.ill("disk: the file changed while it was read");
    no_wrong_line(&ran);
}

/// The rest of a cut page reads as zeros, with no fault: only its length tells.
#[test]
fn cut_inside_the_last_page() {
    let folder = Folder::new();
    let image = Image::full(&folder.at("disk"), CAPACITY);
    let length = image.file.metadata().expect("facts").len();
    let digest = begun(&folder, &["digest", "disk"]);
    image.length(length - 100);
    let ran = ended(digest);
    ran.ill("disk: the file changed while it was read");
    no_wrong_line(&ran);
}

#[test]
fn written_to_at_the_same_length() {
    let folder = Folder::new();
    let image = Image::full(&folder.at("disk"), CAPACITY);
    let length = image.file.metadata().expect("facts").len();
    let digest = begun(&folder, &["digest", "disk"]);
    image.put(length - 1, b"x");
    let ran = ended(digest);
    ran.ill("disk: the file changed while it was read");
    no_wrong_line(&ran);
}

/// The time of modification is its owner's to set, that of the last change is not.
#[test]
fn written_to_with_the_old_time_put_back() {
    let folder = Folder::new();
    let image = Image::full(&folder.at("disk"), CAPACITY);
    let facts = image.file.metadata().expect("facts");
    let digest = begun(&folder, &["digest", "disk"]);
    image.put(facts.len() - 1, b"x");
    put_back(&image.file, &facts);
    let ran = ended(digest);
    ran.ill("disk: the file changed while it was read");
    no_wrong_line(&ran);
}

/// A reader that goes away, as `head` does, ends the tool with no word.
#[test]
fn nobody_reads_on() {
    let folder = Folder::new();
    Image::full(&folder.at("disk"), CAPACITY);
    let (mut child, _) = begun(&folder, &["digest", "disk"]);
    drop(child.stdout.take());
    let ran = Ran::of(child.wait_with_output().expect("it ends"));
    assert_eq!((ran.status, ran.err.as_str()), (None, ""));
}

mod writing {
    use super::*;
    use held::{held, signal, BIG};
    use std::fs::File;
    use std::os::unix::fs::{FileExt, MetadataExt};
    use std::thread::yield_now;

    fn ran(child: Child) -> Ran {
        Ran::of(child.wait_with_output().expect("it ends"))
    }

    #[test]
    fn normal_of_a_file_that_is_cut() {
        let folder = Folder::new();
        let image = Image::full(&folder.at("disk"), BIG);
        let child = held(&folder, &["--json", "normal", "disk", "-o", "out"]);
        image.length(0);
        signal(&child, libc::SIGCONT);
        let ran = ran(child);
        ran.ill("disk: the file was cut while it was read");
        assert!(ran
            .text()
            .starts_with("{\"failed\":\"disk: the file was cut"));
        assert_eq!(folder.names(), ["disk"]);
    }

    #[test]
    fn collapse_onto_a_file_that_is_cut() {
        let folder = Folder::new();
        let image = Image::full(&folder.at("disk"), BIG);
        Image::new(&folder.at("delta"), BIG);
        let child = held(&folder, &["collapse", "disk", "delta", "-o", "out"]);
        image.length(4096);
        signal(&child, libc::SIGCONT);
        ran(child).ill("disk: the file was cut while it was read");
        assert_eq!(folder.names(), ["delta", "disk"]);
    }

    #[test]
    fn a_file_that_changes_a_little() {
        let folder = Folder::new();
        let image = Image::full(&folder.at("disk"), BIG);
        let child = held(&folder, &["normal", "disk", "-o", "out"]);
        image.put(512 * image.start, b"x");
        signal(&child, libc::SIGCONT);
        ran(child).ill("disk: the file changed while it was read");
        assert_eq!(folder.names(), ["disk"]);
    }

    /// As a disk that fails under the output, which cannot be had here.
    #[test]
    fn an_output_that_is_cut() {
        let folder = Folder::new();
        Image::full(&folder.at("disk"), BIG);
        let child = held(&folder, &["--json", "normal", "disk", "-o", "out"]);
        let part = folder.at(&folder.names()[0]);
        let part = File::options().write(true).open(part).expect("the part");
        signal(&child, libc::SIGCONT);
        // Only once it has blocks: until these are asked for, a length that is taken away comes back with them.
        while part.metadata().expect("facts").blocks() == 0 {
            yield_now();
        }
        part.set_len(0).expect("a length");
        let ran = ran(child);
        ran.ill("out: the disk is full or failed while this was written");
        assert!(ran.text().starts_with("{\"failed\":\"out: the disk"));
        assert_eq!(folder.names(), ["disk"]);
    }

    /// The file that two of three layers are in, while it is read, is looked at as any other.
    #[test]
    fn what_lies_between_changes() {
        let folder = Folder::new();
        Image::full(&folder.at("disk"), BIG);
        Image::new(&folder.at("middle"), BIG);
        Image::new(&folder.at("top"), BIG);
        let words = ["collapse", "disk", "middle", "top", "-o", "out"];
        let child = held(&folder, &words);
        signal(&child, libc::SIGCONT);
        // Two parts at a time: the one is read, the other written.
        let between = loop {
            let names = folder.names();
            if names[1].ends_with("-1.part") {
                break folder.at(&names[0]);
            }
            yield_now();
        };
        let between = File::options().write(true).open(between);
        between
            .expect("a part")
            .write_at(b"x", 512)
            .expect("written");
        ran(child).ill("out: the file changed while it was read");
        assert_eq!(folder.names(), ["disk", "middle", "top"]);
    }

    #[test]
    fn an_output_that_somebody_else_makes_meanwhile() {
        let folder = Folder::new();
        Image::full(&folder.at("disk"), CAPACITY);
        let child = held(&folder, &["normal", "disk", "-o", "out"]);
        std::fs::write(folder.at("out"), "theirs").expect("written");
        signal(&child, libc::SIGCONT);
        ran(child).ill("out: was made by somebody else meanwhile");
        assert_eq!(
            std::fs::read(folder.at("out")).expect("the file"),
            b"theirs"
        );
        assert_eq!(folder.names(), ["disk", "out"]);
    }
}
