//! Descriptor texts: how much of them is read, which refusal comes first, and hints where people err.

mod common;
#[path = "common/image.rs"]
mod image;

use common::{emulated, run, tool, Folder, Ran, TOOL};
use image::Image;
use std::fs::{self, File};
use std::io::Write;
use std::process::{Command, Stdio};
use std::time::{Duration, Instant};

const TEXT: &str = "# Disk DescriptorFile\nversion=1\nCID=1234abcd\nparentCID=ffffffff\n\
    createType=\"twoGbMaxExtentSparse\"\nRW 4192256 SPARSE \"disk-s001.vmdk\"\n";

/// Far less than reading a long file takes, and far more than a text does.
const SOON: Duration = Duration::from_secs(15);

/// A tebibyte of holes, and less by an emulator, which keeps some bytes for each page.
fn long() -> u64 {
    if emulated() {
        1 << 36
    } else {
        1 << 40
    }
}

fn text(folder: &Folder, start: &str, length: u64) {
    fs::write(folder.at("text"), start).expect("written");
    let file = File::options().write(true).open(folder.at("text"));
    file.and_then(|file| file.set_len(length))
        .expect("a length");
}

#[test]
fn a_text_of_a_tebibyte_is_refused_at_once() {
    let folder = Folder::new();
    for start in [TEXT, "", "no descriptor"] {
        text(&folder, start, long());
        let begun = Instant::now();
        run(folder.path(), &["describe", "text"]).ended(1, "text: refused 36: ");
        assert!(begun.elapsed() < SOON, "{:?}", begun.elapsed());
    }
}

/// Nor does it take room: neither memory nor addresses.
#[test]
fn a_text_of_a_tebibyte_needs_little_room() {
    if emulated() {
        println!("NOT RUN: little room, since an emulator needs more itself");
        return;
    }
    let folder = Folder::new();
    text(&folder, TEXT, long());
    let output = Command::new("sh")
        .args(["-c", "ulimit -v 1000000 && exec \"$0\" describe text", TOOL])
        .current_dir(folder.path())
        .output();
    Ran::of(output.expect("a shell")).ended(1, "text: refused 36: ");
}

/// 36 comes before 31 and 30, and zero bytes count.
#[test]
fn the_length_is_judged_first() {
    let folder = Folder::new();
    let after_zero = format!("{TEXT}\0x");
    for (start, length, told) in [
        (TEXT, 65_536, ""),
        (TEXT, 65_537, "refused 36"),
        ("no descriptor", 65_536, "refused 30"),
        ("no descriptor", 65_537, "refused 36"),
        (&after_zero, 65_536, "refused 31"),
        (&after_zero, 65_537, "refused 36"),
    ] {
        text(&folder, start, length);
        let ran = run(folder.path(), &["describe", "text"]);
        if told.is_empty() {
            ran.well();
        } else {
            ran.ended(1, told);
        }
    }
}

/// An image whose descriptor has this many sectors, from `first` on.
fn holding(folder: &Folder, first: u64, sectors: u64, length: u64) {
    let _ = fs::remove_file(folder.at("image"));
    let image = Image::new(&folder.at("image"), 2048);
    image.put(28, &first.to_le_bytes());
    image.put(36, &sectors.to_le_bytes());
    if 0 < first && first < length / 512 {
        image.put(512 * first, TEXT.as_bytes());
    }
    image.length(length);
}

#[test]
fn a_descriptor_inside_of_over_128_sectors_is_refused_at_once() {
    let folder = Folder::new();
    let first = 1024;
    holding(&folder, first, 128, 512 * (first + 128));
    let ran = run(folder.path(), &["describe", "image"]);
    assert!(ran
        .well()
        .text()
        .starts_with("descriptor: inside an image\n"));
    holding(&folder, first, 129, 512 * (first + 129));
    run(folder.path(), &["describe", "image"]).ended(1, "image: refused 36: ");
    let begun = Instant::now();
    holding(&folder, first, long() / 512 - first, long());
    run(folder.path(), &["describe", "image"]).ended(1, "image: refused 36: ");
    assert!(begun.elapsed() < SOON, "{:?}", begun.elapsed());
}

/// One that is not inside the file is refused with 8, whatever its length.
#[test]
fn a_descriptor_out_of_place_is_refused_by_its_place() {
    let folder = Folder::new();
    for (first, sectors) in [
        (1024, 1 << 40),
        (u64::MAX, 1),
        (1, u64::MAX),
        (u64::MAX, u64::MAX),
        (1 << 55, 1 << 55),
        (0, 20),
        (1024, 0),
    ] {
        holding(&folder, first, sectors, 1 << 20);
        run(folder.path(), &["describe", "image"]).ended(1, "image: refused 8: the descriptor ");
    }
}

#[test]
fn a_descriptor_handed_in_as_an_image_is_told_what_reads_it() {
    let folder = Folder::new().with(&["tool-base.vmdk"]);
    let hint = "text: refused 2: the file begins with neither KDMV nor COWD, so it is no sparse image (it is a descriptor, which `anhkhovet describe` reads";
    let images =
        "; here single image files are taken, and those of its extents are disk-s001.vmdk)";
    let none = "; here single image files are taken, and none of its extents is one)";
    let faulty = TEXT.replace("version=1", "version");
    let flat = TEXT.replace("SPARSE \"disk-s001.vmdk\"", "FLAT \"disk-f001.vmdk\" 0");
    for (text, more) in [(TEXT, images), (&faulty, ")"), (&flat, none)] {
        fs::write(folder.at("text"), text).expect("written");
        let hint = format!("{hint}{more}");
        let told = run(folder.path(), &["survey", "text"]).text();
        assert!(told.contains(hint.trim_start_matches("text: ")), "{told}");
        for words in [
            &["sector", "tool-base.vmdk", "text", "0"][..],
            &["map", "tool-base.vmdk", "text"],
            &["read", "tool-base.vmdk", "text", "0"],
            &["digest", "tool-base.vmdk", "text"],
            &["normal", "text", "-o", "out"],
            &["collapse", "tool-base.vmdk", "text", "-o", "out"],
        ] {
            run(folder.path(), words).ended(1, &hint);
        }
    }
    for other in ["# Disk\n", "", "some text of another kind\n"] {
        fs::write(folder.at("text"), other).expect("written");
        let told = run(folder.path(), &["check", "text"]).text();
        assert!(
            told.contains("refused") && !told.contains("describe"),
            "{told}"
        );
    }
}

#[test]
fn an_extent_without_a_text_says_so() {
    let folder = Folder::new();
    Image::new(&folder.at("extent"), 2048);
    let ran = run(folder.path(), &["describe", "extent"]);
    ran.ended(1, "extent: is an extent without a descriptor inside");
}

/// The tool with these bytes on standard input. It may end before it took all of them.
fn fed(folder: &Folder, words: &[&str], bytes: &[u8]) -> Ran {
    let mut child = tool(folder.path())
        .args(words)
        .stdin(Stdio::piped())
        .stdout(Stdio::piped())
        .stderr(Stdio::piped())
        .spawn()
        .expect("the tool starts");
    let mut input = child.stdin.take().expect("a pipe");
    let _ = input.write_all(bytes);
    drop(input);
    Ran::of(child.wait_with_output().expect("it ends"))
}

/// What is told of a text whose extent's file is missing, but for that.
fn without_files(told: &str) -> String {
    let missing = "disk-s001.vmdk: cannot be opened: No such file or directory (os error 2)";
    told.replace("file      name", "name")
        .replace("not there disk", "disk")
        .replace(&format!("extent 0: {missing}\n"), "")
        .replace("\"there\":false,", "")
        .replace(&format!(",\"why\":\"{missing}\""), "")
}

#[test]
fn a_text_on_standard_input() {
    let folder = Folder::new().with(&["tool-base.vmdk"]);
    fs::write(folder.at("text"), TEXT).expect("written");
    for more in [&["--sector", "7"][..], &["--json"]] {
        let file = run(folder.path(), &[&["describe", "text"], more].concat());
        let file = without_files(&file.well().text());
        let input = fed(
            &folder,
            &[&["describe", "-"], more].concat(),
            TEXT.as_bytes(),
        );
        assert_eq!(input.well().text(), file);
    }
    fed(&folder, &["describe", "-"], b"").ended(1, "-: refused 30");
    let image = fs::read(folder.at("tool-base.vmdk")).expect("a sample");
    fed(&folder, &["describe", "-"], &image).ended(2, "-: an image is read here and there");
    let endless = File::open("/dev/zero").expect("zeros without end");
    let output = tool(folder.path())
        .args(["describe", "-"])
        .stdin(endless)
        .output();
    Ran::of(output.expect("the tool starts")).ended(1, "-: refused 36");
}

#[test]
fn a_sector_goes_to_standard_output_by_its_name() {
    let folder = Folder::new().with(&["tool-base.vmdk"]);
    for more in [
        &["-o", "-"][..],
        &["-o", "-", "--force"],
        &["-o-", "--json"],
    ] {
        let words = [&["read", "tool-base.vmdk", "2"], more].concat();
        let without: Vec<&str> = words
            .iter()
            .copied()
            .filter(|word| !matches!(*word, "-o" | "-" | "-o-" | "--force"))
            .collect();
        let ran = run(folder.path(), &words);
        assert_eq!(ran.well().out, run(folder.path(), &without).well().out);
    }
    assert_eq!(folder.names(), ["tool-base.vmdk"]);
}

#[test]
fn an_image_is_no_stream_and_that_is_told() {
    let folder = Folder::new().with(&["tool-base.vmdk"]);
    let image = fs::read(folder.at("tool-base.vmdk")).expect("a sample");
    for words in [
        &["check", "-"][..],
        &["check", "tool-base.vmdk", "-"],
        &["map", "-"],
        &["map", "--coverage", "-"],
        &["sector", "-", "0"],
        &["read", "-", "0"],
        &["digest", "-"],
        &["digest", "-", "--list", "-"],
        &["normal", "-", "-o", "out"],
        &["collapse", "tool-base.vmdk", "-", "-o", "out"],
        &["normal", "tool-base.vmdk", "-o", "-"],
        &["collapse", "tool-base.vmdk", "tool-base.vmdk", "-o", "-"],
    ] {
        let ran = fed(&folder, words, &image);
        ran.ended(2, "a file of that name is ./-");
        assert_eq!(ran.out, b"", "{words:?}");
    }
    fs::write(folder.at("-"), &image).expect("written");
    run(folder.path(), &["check", "./-"]).well();
    let words = ["normal", "tool-base.vmdk", "-o", "./-", "--force"];
    run(folder.path(), &words).well();
    assert_ne!(fs::read(folder.at("-")).expect("an output"), image);
    assert_eq!(folder.names(), ["-", "tool-base.vmdk"]);
}
