//! What is opened: plain files alone, of which little is read.

mod common;
#[path = "common/image.rs"]
mod image;

use common::{emulated, run, tool, Folder, Ran};
use image::{Image, GRAIN};
use std::ffi::CString;
use std::fs::{self, File};
use std::mem::zeroed;
use std::os::unix::ffi::OsStrExt;
use std::os::unix::fs::{symlink, FileExt};
use std::os::unix::net::UnixListener;
use std::path::Path;
use std::process::{Child, Stdio};
use std::thread::sleep;
use std::time::{Duration, Instant};

const COMMANDS: [&[&str]; 12] = [
    &["check", "it"],
    &["sector", "it", "0"],
    &["explain", "it", "0"],
    &["read", "it", "0"],
    &["map", "it"],
    &["digest", "it"],
    &["normal", "it", "-o", "out"],
    &["mend", "it", "--good", "primary", "-o", "out"],
    &["move", "it", "-o", "out"],
    &["close", "it", "-o", "out"],
    &["collapse", "it", "it", "-o", "out"],
    &["describe", "it"],
];

/// What a run left that must end at once.
fn at_once(mut child: Child) -> Ran {
    let begun = Instant::now();
    while child.try_wait().expect("a child").is_none() {
        if begun.elapsed() > Duration::from_secs(20) {
            let _ = child.kill();
            panic!("it waits");
        }
        sleep(Duration::from_millis(1));
    }
    Ran::of(child.wait_with_output().expect("it ended"))
}

fn told_at_once(folder: &Folder, kind: &str) {
    let named = folder.names();
    for words in COMMANDS {
        let mut command = tool(folder.path());
        let command = command.args(words);
        let child = command.stdout(Stdio::piped()).stderr(Stdio::piped());
        let ran = at_once(child.spawn().expect("the tool starts"));
        let told = format!("it: is a {kind} and not a plain file");
        assert_eq!(ran.status, Some(4), "{words:?}");
        assert!((ran.text() + &ran.err).contains(&told), "{words:?}");
        assert_eq!(folder.names(), named, "{words:?}");
    }
}

#[test]
fn a_folder() {
    let folder = Folder::new();
    fs::create_dir(folder.at("it")).expect("a folder");
    told_at_once(&folder, "folder");
}

#[test]
fn a_named_pipe() {
    let folder = Folder::new();
    let path = folder.at("it");
    let name = CString::new(path.as_os_str().as_bytes()).expect("a name");
    // SAFETY: a string that ends in a zero byte.
    assert_eq!(unsafe { libc::mkfifo(name.as_ptr(), 0o600) }, 0);
    told_at_once(&folder, "named pipe");
}

#[test]
fn a_socket() {
    let folder = Folder::new();
    let _listener = UnixListener::bind(folder.at("it")).expect("a socket");
    told_at_once(&folder, "socket");
}

#[test]
fn a_device() {
    let folder = Folder::new();
    symlink("/dev/zero", folder.at("it")).expect("a link");
    told_at_once(&folder, "device");
}

/// One table lies past the end, so the check refuses the image; a sector that another table leads to has an answer all the same.
#[test]
fn a_table_past_the_end() {
    let folder = Folder::new();
    let disk = Image::new(&folder.at("disk"), 2 * 512 * GRAIN);
    disk.entry(0, disk.start);
    disk.put(512 * disk.start, b"here");
    disk.put(512 + 4, &[0xff; 4]);
    disk.length(512 * (disk.start + GRAIN));
    let verdict = run(folder.path(), &["check", "disk"]);
    assert_eq!(verdict.status, Some(1));
    let told = verdict.text();
    assert!(told.contains("refused 8: a primary table "), "{told}");
    let ran = run(folder.path(), &["read", "disk", "0"]);
    assert_eq!(&ran.well().out[..5], b"here\0");
    run(folder.path(), &["sector", "disk", "65536"]).ended(1, "refused 8: a primary table ");
}

/// The most memory that a program run by this one has had, in KiB.
fn most_memory() -> i64 {
    // SAFETY: a record of numbers, and a call that writes it.
    unsafe {
        let mut usage: libc::rusage = zeroed();
        assert_eq!(libc::getrusage(libc::RUSAGE_CHILDREN, &mut usage), 0);
        usage.ru_maxrss
    }
}

/// Of a layer whose length is no multiple of a page, of an image that is refused, and of a long file that is nearly all holes, only
/// what decides is read. The check of the long file takes a bit for each file sector beside that.
#[test]
fn little_is_read() {
    if emulated() {
        println!("NOT RUN: memory is not measured under an emulator");
        return;
    }
    let folder = Folder::new();
    let (base, capacity) = (folder.at("base"), 1 << 18);
    let image = Image::full(&base, capacity);
    // Part by part: what this program has counts too.
    for grain in 0..capacity / GRAIN {
        let at = 512 * (image.start + GRAIN * grain);
        image.put(at, &[b'x'; 512 * GRAIN as usize]);
    }
    image.put(512 * (image.start + capacity), b"x");
    Image::new(&folder.at("delta"), capacity);
    let ran = run(folder.path(), &["read", "base", "delta", "2000"]);
    assert_eq!(ran.well().out, [b'x'; 512]);
    // A descriptor's sector without its length: the check refuses that, and no lookup does.
    image.put(28, &[1]);
    let ran = run(folder.path(), &["read", "base", "2000"]);
    assert_eq!(ran.well().out, [b'x'; 512]);
    let verdict = run(folder.path(), &["check", "base"]);
    let told = verdict.text();
    assert!(told.contains("refused 8: the descriptor "), "{told}");
    sparse(&folder.at("long"));
    run(folder.path(), &["sector", "long", "0"]).well();
    let most = most_memory();
    assert!(most < 48 << 10, "{most} KiB");
    run(folder.path(), &["check", "long"]).well();
    let most = most_memory();
    assert!(most < (48 + 257) << 10, "{most} KiB");
}

/// A disk of a tebibyte with all of its tables, which are holes but for one.
fn sparse(path: &Path) {
    let image = Image::new(path, 1 << 31);
    image.entry(1 << 23, image.start);
    image.length(512 * (image.start + (1 << 31)));
    let file: &File = &image.file;
    file.write_all_at(b"x", 512 * image.start).expect("written");
}
