//! Disks of several files with images that were still open: each is named with its extent.

mod common;
#[path = "common/dirty.rs"]
mod dirty;
#[path = "common/disks.rs"]
mod disks;

use common::{run, Folder, Ran};
use dirty::{NOTE, REMARK, SAMPLES};
use disks::descriptor;
use serde_json::{json, Value};
use std::fs;

fn told(folder: &Folder, words: &str) -> Ran {
    run(folder.path(), &words.split(' ').collect::<Vec<_>>())
}

fn object(ran: &Ran) -> Value {
    serde_json::from_slice(&ran.out).expect("one object")
}

fn folder() -> Folder {
    let folder = Folder::new().with(&SAMPLES);
    dirty::add(&folder);
    folder
}

fn note(disk: &str, extent: usize, file: &str) -> String {
    format!("anhkhovet: {disk}: extent {extent}: {file}: {NOTE}\n")
}

/// Whether each extent was still open, as the objects of a list say.
fn extents(said: &Value) -> Vec<Option<bool>> {
    let extents = said["extents"].as_array().expect("extents");
    extents
        .iter()
        .map(|extent| extent.get("still_open").and_then(Value::as_bool))
        .collect()
}

#[test]
fn the_whole_disk_names_each() {
    let folder = folder();
    let notes = note("open-disk", 0, "open-base") + &note("open-disk", 4, "open-lab");
    for words in [
        "map open-disk",
        "digest open-disk",
        "describe open-disk",
        "describe open-disk --sector 7",
    ] {
        let ran = told(&folder, words);
        assert_eq!((ran.status, &ran.err), (Some(0), &notes), "{words}");
        let said = object(&told(&folder, &format!("--json {words}")));
        assert_eq!(said["still_open"], true, "{words}");
        if words.starts_with("describe") {
            let wanted = [Some(true), None, None, Some(false), Some(true)];
            assert_eq!(extents(&said), wanted, "{words}");
        } else {
            assert_eq!(said["open_files"], json!(["open-base", "open-lab"]));
        }
    }
}

/// The other extents' files are not looked at.
#[test]
fn a_sector_names_its_own_extent_alone() {
    let folder = folder();
    for (sector, notes) in [
        (2, note("open-disk", 0, "open-base")),
        (2050, String::new()),
        (2056, String::new()),
        (2064, String::new()),
        (4112, note("open-disk", 4, "open-lab")),
    ] {
        for command in ["sector", "read"] {
            let words = format!("{command} open-disk {sector}");
            let ran = told(&folder, &words);
            assert_eq!((ran.status, &ran.err), (Some(0), &notes), "{words}");
            let said = object(&told(&folder, &format!("--json {words}")));
            assert_eq!(said["still_open"], !notes.is_empty(), "{words}");
        }
    }
}

#[test]
fn check_says_it_of_the_disk_and_of_each_extent() {
    let folder = folder();
    let text = told(&folder, "check open-disk").well().text();
    let told_of: Vec<bool> = text.lines().map(|line| line.ends_with(REMARK)).collect();
    // The disk, the titles, and five extents.
    assert_eq!(told_of, [true, false, true, false, false, false, true]);
    let said = object(told(&folder, "--json check open-disk").well())["files"][0].take();
    assert_eq!(said["still_open"], true);
    let wanted = [Some(true), None, None, Some(false), Some(true)];
    assert_eq!(extents(&said), wanted);
    assert!(said["accepted"].is_object());

    descriptor(&folder, "sound", "RW 2048 SPARSE \"tool-base.vmdk\"\n");
    let said = object(told(&folder, "--json check sound").well())["files"][0].take();
    assert_eq!(said["still_open"], false);
    descriptor(&folder, "plain", "RW 8 FLAT \"open-base\" 0\n");
    let said = object(told(&folder, "--json check plain").well())["files"][0].take();
    assert_eq!(said.get("still_open"), None, "no image is in it");
}

/// An extent that is refused, one that nobody is to look at, and one whose file is gone.
#[test]
fn beside_refusals() {
    let folder = folder();
    fs::remove_file(folder.at("tool-base.vmdk")).expect("removed");
    let said = object(&told(&folder, "--json check torn-disk"))["files"][0].take();
    let wanted = [Some(true), None, None, None, Some(true), Some(true), None];
    assert_eq!(extents(&said), wanted, "{said}");
    assert_eq!(said["extents"][5]["refused"]["number"], 9);
    assert_eq!(said["extents"][6]["refused"]["number"], 39);
    let ran = told(&folder, "describe torn-disk");
    let notes = note("torn-disk", 0, "open-base")
        + &note("torn-disk", 4, "open-lab")
        + &note("torn-disk", 5, "open-cut");
    assert_eq!((ran.status, &ran.err), (Some(0), &notes));
    assert_eq!(
        extents(&object(&told(&folder, "--json describe torn-disk"))),
        wanted
    );
    told(&folder, "sector torn-disk 4344").ended(
        1,
        &(note("torn-disk", 5, "open-cut") + "anhkhovet: torn-disk: extent 5: open-cut: refused 9"),
    );
}
