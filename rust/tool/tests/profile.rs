//! `profile`: what decides is read, grains are not, and each file has its answer.

mod common;
#[path = "common/image.rs"]
mod image;
#[path = "common/published.rs"]
mod published;

use common::{run, run_soon, Folder};
use image::{Image, GRAIN};
use published::{published, put, GAP, V};
use serde_json::Value;
use std::collections::BTreeSet;
use std::fs;

fn folder() -> Folder {
    let folder = Folder::new();
    fs::write(folder.at("image"), published()).expect("written");
    folder
}

/// What is told of the image with these bytes.
fn told(folder: &Folder, image: &[u8]) -> String {
    fs::write(folder.at("changed"), image).expect("written");
    run(folder.path(), &["profile", "changed"]).text()
}

#[test]
fn each_byte_of_the_gap_is_read() {
    let folder = folder();
    for at in [GAP, GAP + 1, GAP + 511, 7 * 512, 100 * 512 + 77, V - 1] {
        let mut image = published();
        image[at] = 1;
        let wanted = format!("changed: refused 42 at byte {at}: from here on the file is not its own normal form (what stands there: the gap ");
        assert!(told(&folder, &image).starts_with(&wanted), "{at}");
    }
}

#[test]
fn what_stands_there() {
    let folder = folder();
    let cases = [
        (4, 3, 4, "the header's version"),
        (64, 0, 64, "the header's overhead"),
        (508, 1 << 24, 511, "the header's padding"),
        (512, 0, 512, "entry 0 of the directory"),
        (
            1020,
            1 << 8,
            1021,
            "a part of the directory that no entry uses",
        ),
        (1024, 0, 1032, "the table entry of grain 2"),
        (1036, 1 << 16, 1038, "a table entry that no grain uses"),
        (
            1032,
            0,
            256 * 512,
            "the end of the normal form, and the file has 65536 bytes more",
        ),
    ];
    for (at, number, place, part) in cases {
        let mut image = published();
        put(&mut image, at, number);
        let wanted = format!("changed: refused 42 at byte {place}: from here on the file is not its own normal form (what stands there: {part}; `anhkhovet normal FILE -o OUT` writes the normal form)\n");
        assert_eq!(told(&folder, &image), wanted);
    }
    let met = "changed: meets the profile, capacity 384 sectors\n";
    assert_eq!(told(&folder, &published()), met);
}

/// The tool reads a part of the file, and says what the library says of all of it.
#[test]
fn own_bytes_answer_as_the_whole_file() {
    let folder = folder();
    let mut numbers = BTreeSet::new();
    for at in (0..200).chain((200..V + 3000).step_by(509)) {
        let mut image = published();
        image[at] ^= 3;
        image.truncate(published().len() - at % 2 * 77);
        fs::write(folder.at("changed"), &image).expect("written");
        let ran = run(folder.path(), &["profile", "--json", "changed"]);
        let said: Value = serde_json::from_slice(&ran.out).expect("an object");
        let refused = &said["files"][0]["refused"];
        match anhkhovet::profile(&image) {
            Ok(_) => assert!(refused.is_null(), "{at}"),
            Err(refusal) => {
                numbers.insert(refusal.number);
                assert_eq!(refused["number"], refusal.number, "{at}");
                assert_eq!(refused["place"], refusal.place, "{at}");
            }
        }
    }
    assert!(
        [9, 27, 42, 47]
            .iter()
            .all(|number| numbers.contains(number)),
        "{numbers:?}"
    );
}

/// The normal form of what is refused 42 meets it.
#[test]
fn the_hint_leads_there() {
    let folder = Folder::new().with(&["tool-base.vmdk", "tool-top.vmdk", "zeroed-grain.vmdk"]);
    for name in folder.names() {
        let ran = run(folder.path(), &["profile", &name]);
        assert!(ran.text().contains("refused 42 at byte "), "{name}");
        run(folder.path(), &["normal", &name, "-o", "out", "--force"]).well();
        run(folder.path(), &["profile", "out"]).well();
    }
}

/// 64 GiB of grains, all of them holes: nothing of them is read.
#[test]
fn a_long_image_takes_no_time() {
    let folder = Folder::new();
    let image = Image::full(&folder.at("long"), (64 << 21) / GRAIN * GRAIN);
    image.put(64, &image.start.to_le_bytes());
    let ran = run_soon(folder.path(), &["profile", "long"]);
    let wanted = format!(
        "long: meets the profile, capacity {} sectors\n",
        image.capacity
    );
    assert_eq!(ran.text(), wanted);
    // A byte before the first grain.
    image.put(512 * image.start - 1, &[1]);
    let ran = run_soon(folder.path(), &["profile", "long"]);
    let place = 512 * image.start - 1;
    assert!(ran
        .text()
        .contains(&format!("refused 42 at byte {place}: ")));
}
