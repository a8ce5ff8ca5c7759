//! Files of more than one window of 4 GiB, nearly all of them holes: checked in a lent list, with the answers of short files.

mod common;
#[path = "common/disks.rs"]
mod disks;
#[path = "common/image.rs"]
mod image;

use common::{run, Folder};
use disks::descriptor;
use image::{Image, GRAIN};
use serde_json::{json, Value};

/// Sectors of a window.
const WINDOW: u64 = 8_388_608;
const CAPACITY: u64 = 5 * GRAIN;

/// The refusal of areas that meet.
const SHARED: &str = "refused 12: two areas of the file share a sector";

/// A file that ends in the second window. Its last grains stand at these sectors of it, the second one is zero.
fn long(folder: &Folder, name: &str, far: [u64; 3]) -> Image {
    let image = Image::new(&folder.at(name), CAPACITY);
    image.entry(0, image.start);
    image.put(512 * image.start, b"near");
    image.entry(1, 1);
    for (grain, after) in (2..).zip(far) {
        let at = WINDOW + after;
        image.entry(grain, at);
        image.put(512 * at, format!("far {grain}").as_bytes());
    }
    image.length(512 * (WINDOW + 16 * GRAIN));
    image
}

/// The same disk in a short file, its grains in a row.
fn short(folder: &Folder, name: &str) {
    let image = Image::new(&folder.at(name), CAPACITY);
    for (grain, word) in [(0, "near"), (2, "far 2"), (3, "far 3"), (4, "far 4")] {
        let at = image.start + GRAIN * grain;
        image.entry(grain, at);
        image.put(512 * at, word.as_bytes());
    }
    image.entry(1, 1);
    image.length(512 * (image.start + CAPACITY));
}

/// Grains that are apart, not in order; and the same two that meet in one sector.
const APART: [u64; 3] = [5 * GRAIN, GRAIN, 2 * GRAIN];
const MEETING: [u64; 3] = [5 * GRAIN, GRAIN, 2 * GRAIN - 1];

fn told(folder: &Folder, words: &str) -> String {
    let words: Vec<&str> = words.split(' ').collect();
    run(folder.path(), &words).well().text()
}

#[test]
fn an_image_is_checked() {
    let folder = Folder::new();
    long(&folder, "apart", APART);
    long(&folder, "meeting", MEETING);
    let ran = run(folder.path(), &["check", "apart", "meeting"]);
    let wanted =
        format!("apart: accepted, capacity 640 sectors, grain size 128\nmeeting: {SHARED}\n");
    assert_eq!((ran.status, ran.text()), (Some(1), wanted));
    let ran = run(folder.path(), &["check", "--json", "apart", "meeting"]);
    let said: Value = serde_json::from_slice(&ran.out).expect("an object");
    let accepted = json!({ "capacity": 640, "grain_size": 128 });
    assert_eq!(said["files"][0]["accepted"], accepted);
    assert_eq!(said["files"][1]["refused"]["number"], 12);
    assert_eq!(said["files"][1]["refused"]["place"], 0);
}

/// 9 comes before the list is looked at, 12 also where a grain meets what is no grain.
#[test]
fn other_refusals_of_long_files() {
    let folder = Folder::new();
    let image = long(&folder, "image", APART);
    let check = || {
        let ran = run(folder.path(), &["check", "image"]);
        assert_eq!(ran.status, Some(1), "{}", ran.err);
        ran.text()
    };
    image.entry(0, 2);
    assert_eq!(check(), format!("image: {SHARED}\n"));
    image.entry(3, WINDOW + 15 * GRAIN + 1);
    let past = "image: refused 9 at grain 3: the grain runs past the end of the file\n";
    assert_eq!(check(), past);
    image.entry(0, image.start);
    image.entry(3, WINDOW + 15 * GRAIN);
    let text = told(&folder, "check image");
    assert!(text.starts_with("image: accepted, "), "{text}");
}

#[test]
fn an_image_is_mapped_and_digested() {
    let folder = Folder::new();
    let start = long(&folder, "long", APART).start;
    short(&folder, "short");
    assert_eq!(told(&folder, "digest long"), told(&folder, "digest short"));
    let map: Value = serde_json::from_str(&told(&folder, "map --json long")).expect("an object");
    let places: Vec<&Value> = map["runs"].as_array().expect("runs").iter().collect();
    let places: Vec<_> = places
        .iter()
        .map(|run| run["file_sector"].as_u64())
        .collect();
    let [second, third, _] = APART.map(|after| Some(WINDOW + after));
    // The last two grains stand in a row.
    assert_eq!(places, [Some(start), None, second, third]);
}

#[test]
fn an_image_is_counted() {
    let folder = Folder::new();
    long(&folder, "long", APART);
    let said = told(&folder, "map --coverage --json long");
    let said: Value = serde_json::from_str(&said).expect("an object");
    let row = &said["coverage"][0];
    let sectors = WINDOW + 16 * GRAIN;
    assert_eq!(
        (&row["served"], &row["file_sectors"]),
        (&json!(4 * GRAIN), &json!(sectors))
    );
    // Header, directory and table.
    assert_eq!(row["no_area"], json!(sectors - 4 * GRAIN - 6));
    long(&folder, "meeting", MEETING);
    let ran = run(folder.path(), &["map", "--coverage", "meeting"]);
    ran.ended(1, SHARED);
}

/// The check of an extent's image, and what is told of it before and after the check.
#[test]
fn an_extent_is_checked_mapped_and_digested() {
    let folder = Folder::new();
    long(&folder, "apart", APART);
    long(&folder, "meeting", MEETING);
    short(&folder, "short");
    let disk = |name: &str, line: &str| {
        descriptor(&folder, name, &format!("RW 8 ZERO\n{line}\n"));
    };
    disk("long", "RW 640 SPARSE \"apart\"");
    disk("like", "RW 640 SPARSE \"short\"");
    let text = told(&folder, "check long");
    assert!(
        text.starts_with("long: accepted, capacity 648 sectors in 2 extents\n"),
        "{text}"
    );
    assert_eq!(told(&folder, "digest long"), told(&folder, "digest like"));
    let map = told(&folder, "map long");
    let far = format!(" {} ", WINDOW + APART[0]);
    assert!(map.contains(&far), "{map}");

    disk("refused", "RW 640 SPARSE \"meeting\"");
    disk("other", "RW 640 VMFSSPARSE \"meeting\"");
    disk("larger", "RW 641 SPARSE \"apart\"");
    for (name, why) in [
        ("refused", SHARED),
        ("other", "refused 43: "),
        ("larger", "refused 38: "),
    ] {
        let ran = run(folder.path(), &["check", name]);
        assert_eq!(ran.status, Some(1), "{}", ran.err);
        assert!(ran.text().contains(why), "{}", ran.text());
        for command in ["map", "digest"] {
            run(folder.path(), &[command, name]).ended(1, why);
        }
    }
}
