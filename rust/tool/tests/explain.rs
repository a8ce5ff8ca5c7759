//! `explain`: the way to a sector ends where `sector` says, and each byte of it stands in the file.

mod common;
#[path = "common/disks.rs"]
mod disks;
#[path = "common/explained.rs"]
mod explained;

use common::Folder;
use explained::{agrees, list, names, ran};
use std::fs;

const CHAIN: [&str; 3] = ["tool-base.vmdk", "tool-middle.vmdk", "tool-top.vmdk"];

#[test]
fn samples_end_where_sector_says() {
    let disks = [
        ("monolithic-sparse-data.vmdk", 1000),
        ("stream-optimized-data.vmdk", 1000),
        ("vmdkstream.vmdk", 771),
        ("zeroed-grain-data.vmdk", 1000),
        ("delta.vmdk", 2048),
        ("tool-base.vmdk", 2048),
        ("tool-packed.vmdk", 2048),
    ];
    for (name, capacity) in disks {
        let folder = Folder::new().with(&[name]);
        for first in (0..capacity).step_by(128) {
            let told = agrees(&folder, name, first);
            assert_eq!(list(&told["ways"]).len(), 1, "{name}");
            agrees(&folder, name, (first + 127).min(capacity - 1));
        }
    }
}

/// From the top down to the first layer that is not absent.
#[test]
fn layers() {
    let folder = Folder::new().with(&CHAIN);
    let files = CHAIN.join(" ");
    let asked = [
        (2, &[2][..]),
        (130, &[2, 1]),
        (300, &[2, 1]),
        (400, &[2]),
        (600, &[2, 1, 0]),
    ];
    for (sector, layers) in asked {
        let told = agrees(&folder, &files, sector);
        let ways = list(&told["ways"]);
        let numbers: Vec<u64> = ways
            .iter()
            .filter_map(|way| way["layer"].as_u64())
            .collect();
        assert_eq!(numbers, layers, "{sector}");
        let (last, above) = ways.split_last().expect("a way");
        assert!(
            above.iter().all(|way| names(way).last() == Some(&"absent")),
            "{told}"
        );
        let below = names(last).last() == Some(&"below");
        assert_eq!(below, sector != 600, "{told}");
    }
    let text = ran(&folder, &format!("explain {files} 600")).well().text();
    assert!(
        text.contains("so layer 0, the next below, is asked\n"),
        "{text}"
    );
    assert!(text.contains("none is below it: zeros\n"), "{text}");
}

/// What 1 means is told where an entry is 1, and by the header that has it.
#[test]
fn an_entry_of_one() {
    let folder = Folder::new().with(&CHAIN);
    let told = agrees(&folder, "tool-middle.vmdk", 300);
    let way = &told["ways"][0];
    assert_eq!(
        (&way["one_is_zero"], &way["table"]["entry"]),
        (&true.into(), &1.into())
    );
    assert_eq!(names(way)[4..], ["table entry", "header", "header", "zero"]);
    // In version 1 it is file sector 1.
    let mut image = fs::read(folder.at("tool-base.vmdk")).expect("a sample");
    image[27 * 512 + 8] = 1;
    fs::write(folder.at("one"), image).expect("written");
    let told = agrees(&folder, "one", 300);
    assert_eq!(told["file_sector"], 1 + 44);
    assert_eq!(told["ways"][0]["one_is_zero"], false);
    let text = ran(&folder, "explain one 300").well().text();
    assert!(
        text.contains("an entry of 1 is file sector 1, and means zeros in version 2 or 3"),
        "{text}"
    );
    assert!(!ran(&folder, "explain one 2")
        .text()
        .contains("an entry of 1"));
}

#[test]
fn extents() {
    let folder = Folder::new().with(&disks::SAMPLES);
    disks::add(&folder);
    let mut first = 0;
    for (extent, sectors) in disks::EXTENTS.into_iter().enumerate() {
        for inside in [0, sectors / 2, sectors - 1] {
            let told = agrees(&folder, "all", first + inside);
            let placed = &told["in_extent"];
            assert_eq!(
                (&placed["extent"], &placed["sector"]),
                (&extent.into(), &inside.into())
            );
            let image = placed["type"] == "SPARSE";
            assert_eq!(list(&told["ways"]).len(), usize::from(image), "{told}");
            if image {
                assert_eq!(told["ways"][0]["sector"], inside);
            }
        }
        first += sectors;
    }
    let text = ran(&folder, "explain all 2057").well().text();
    let line = "stored: FLAT has its sectors in a row, by its line from file sector 1 on: file sector 1 + 1 = 2, at byte 512 x 2 = 1024\n";
    assert!(text.contains(line), "{text}");
    let text = ran(&folder, "explain all 2050").well().text();
    assert!(text.contains("zero: ZERO has no file"), "{text}");
}
