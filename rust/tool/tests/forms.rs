//! The forms of lists: what is written is what sha256sum and hashdeep take, and what they write is compared.

mod common;
#[path = "common/outsiders.rs"]
mod outsiders;

use common::{run, Folder, Ran};
use outsiders::{ran, there};
use std::fs;
use std::ops::Range;

const IMAGE: &str = "tool-base.vmdk";
const PACKED: &str = "tool-packed.vmdk";
const ZEROS: &str = "076a27c79e5ace2a3d47f9dd2e83e4ff6ea8872b3c2218f66c92b89b55f36560";

fn listed(folder: &Folder, image: &str, more: &[&str]) -> String {
    let words = [&["digest", image], more].concat();
    run(folder.path(), &words).well().text()
}

fn compare(folder: &Folder, image: &str, list: &str, more: &[&str]) -> Ran {
    fs::write(folder.at("list"), list).expect("written");
    run(
        folder.path(),
        &[&["digest", image, "--list", "list"], more].concat(),
    )
}

/// The list does not hold: these are the lines on standard output.
fn fails(ran: &Ran, lines: &[&str]) {
    assert_eq!((ran.status, ran.err.as_str()), (Some(3), ""));
    assert_eq!(ran.text().lines().collect::<Vec<_>>(), lines);
}

#[test]
fn what_is_printed_in_each_form_agrees_and_is_complete() {
    let folder = Folder::new().with(&[IMAGE, PACKED]);
    let more: [&[&str]; 4] = [
        &[],
        &["--grain"],
        &["--first", "100", "--count", "0x91"],
        &["--grain", "--first", "100", "--count", "300"],
    ];
    for image in [IMAGE, PACKED] {
        for form in ["ours", "sha256sum", "hashdeep"] {
            for more in more {
                let list = listed(&folder, image, &[more, &["--format", form]].concat());
                let ran = compare(&folder, image, &list, &[more, &["--complete"]].concat());
                let none = "is left out\n";
                assert!(
                    ran.well().text().ends_with(none),
                    "{form} {more:?}: {}",
                    ran.text()
                );
                // One line less, and it is not.
                let fewer = &list[..list[..list.len() - 1].rfind('\n').map_or(0, |at| at + 1)];
                let ran = compare(&folder, image, fewer, &[more, &["--complete"]].concat());
                assert_eq!(ran.status, Some(3), "{form} {more:?}");
            }
        }
        if image == IMAGE {
            for form in ["ours", "sha256sum", "hashdeep"] {
                let list = listed(&folder, image, &["--whole", "--format", form]);
                let ran = compare(&folder, image, &list, &["--whole"]);
                assert_eq!(ran.well().text(), "list: the disk's digest agrees\n");
                let ran = compare(&folder, image, &list.replace('0', "1"), &["--whole"]);
                assert_eq!(ran.status, Some(3), "{}", ran.text());
            }
        }
    }
}

#[test]
fn lines_have_the_names_that_are_promised() {
    let folder = Folder::new().with(&[IMAGE, PACKED]);
    let one = ["--first", "255", "--count", "2"];
    let c = "2ab0e56ff48de274010e5f0c4dc6ce87c401f118a9f505fccb828856d078d0d2";
    assert_eq!(
        listed(
            &folder,
            IMAGE,
            &[&one[..], &["--format", "sha256sum"]].concat()
        ),
        format!("{c}  sector-0000000255\n{ZEROS}  sector-0000000256\n")
    );
    assert_eq!(
        listed(&folder, IMAGE, &[&one[..], &["--format", "hashdeep"]].concat()),
        format!("%%%% HASHDEEP-1.0\n%%%% size,sha256,filename\n512,{c},sector-0000000255\n512,{ZEROS},sector-0000000256\n")
    );
    let grains = listed(
        &folder,
        PACKED,
        &["--grain", "--format", "hashdeep", "--count", "129"],
    );
    let named: Vec<(&str, &str)> = grains
        .lines()
        .skip(2)
        .map(|line| (&line[..5], line.rsplit(',').next().expect("a name")))
        .collect();
    // The closed payload has 85 bytes, and its line tells the grain's first sector.
    let (size, digest) = ("85,2f", "packed-0000000128");
    assert_eq!(named, [("65536", "grain-0000000000"), (size, digest)]);
}

/// The sectors of a line of our own form.
fn sectors(line: &str, grains: bool) -> Range<u64> {
    let (sector, rest) = line.split_once(' ').expect("two words");
    let first = sector.parse().expect("a number");
    let whole = grains || rest.ends_with("packed");
    first..first + if whole { 128 } else { 1 }
}

/// Stretches: the lines of all that has a sector in them.
#[test]
fn a_stretch_has_the_lines_of_its_sectors() {
    let folder = Folder::new().with(&[IMAGE, PACKED]);
    for image in [IMAGE, PACKED] {
        for more in [&[][..], &["--grain"]] {
            let all = listed(&folder, image, more);
            let stretches = [
                (0, 1),
                (1, 3),
                (127, 2),
                (130, 200),
                (1000, 1048),
                (2047, 1),
            ];
            for (first, count) in stretches {
                let words = [first, count].map(|number: u64| number.to_string());
                let stretch = ["--first", &words[0], "--count", &words[1]];
                let wanted = all.lines().filter(|line| {
                    let sectors = sectors(line, !more.is_empty());
                    sectors.start < first + count && first < sectors.end
                });
                let lines = listed(&folder, image, &[more, &stretch[..]].concat());
                assert!(wanted.eq(lines.lines()), "{image} {stretch:?}: {lines}");
            }
        }
        let rest = listed(&folder, image, &["--first", "2046"]);
        assert_eq!(rest, format!("2046 {ZEROS}\n2047 {ZEROS}\n"));
        for words in [["--first", "2048"], ["--count", "2049"]] {
            let ran = run(folder.path(), &[&["digest", image], &words[..]].concat());
            ran.ended(1, "refused 20");
            assert!(ran.out.is_empty());
        }
    }
}

/// A list of more than the stretch: what it names elsewhere is passed over, and is not looked at.
#[test]
fn a_stretch_is_compared_with_its_lines_alone() {
    let folder = Folder::new().with(&[IMAGE, PACKED]);
    for image in [IMAGE, PACKED] {
        let all = listed(&folder, image, &[]);
        let hurt = all.replace(
            &format!("\n300 {ZEROS}"),
            &format!("\n300 {}", "0".repeat(64)),
        );
        assert_ne!(all, hurt);
        for (first, count, fails) in [
            ("0", "300", 0),
            ("301", "1747", 0),
            ("300", "1", 1),
            ("140", "300", 1),
        ] {
            let more = ["--complete", "--first", first, "--count", count];
            let ran = compare(&folder, image, &hurt, &more);
            assert_eq!(ran.status, Some(3 * fails), "{first}: {}", ran.text());
            assert_eq!(ran.text().lines().count() as i32, 1 + fails);
            assert!(ran
                .text()
                .contains(&format!("none of the stretch's {count} sectors")));
        }
    }
}

#[test]
fn lines_that_do_not_hold_are_told() {
    let folder = Folder::new().with(&[IMAGE, PACKED]);
    let list = format!(
        "{ZEROS}  sector-0000000300\n{ZEROS} *./cut/sector-301\n\\{ZEROS}  a\\\\b/sector-0302\n{ZEROS}  grain-0000000003\n\
         {ZEROS}  disk\n{ZEROS}  sector-0000002048\n{ZEROS}  sector-0000000000\n{ZEROS}  notes.txt\n{ZEROS} sector-0000000003\n"
    );
    let a = "32beecb58a128af8248504600bd203dcc676adf41045300485655e6b8780a01d";
    fails(
        &compare(&folder, IMAGE, &list, &[]),
        &[
            "list: line 4 names a grain, and here sectors are compared",
            "list: line 5 names the whole disk, and here sectors are compared",
            "list: line 6: sector 2048 is past the end of the disk, whose last is 2047",
            &format!("list: line 7: sector 0 differs: the list has {ZEROS}, the image {a}"),
            "list: line 8 names another file, and here sectors are compared",
            "list: line 9 is not of the form: sector, digest",
            "list: 6 of 9 lines fail; 2044 of the disk's 2048 sectors are left out",
        ],
    );
}

#[test]
fn columns_of_hashdeep_are_told_apart() {
    let folder = Folder::new().with(&[IMAGE]);
    let sizes = format!(
        "%%%% HASHDEEP-1.0\n%%%% size,md5,sha256,filename\n## a, comment\n512,00,{ZEROS},/a,b/sector-0000000300\n\
         1024,00,{ZEROS},sector-0000000301\n512,{ZEROS},sector-0000000302\n"
    );
    fails(
        &compare(&folder, IMAGE, &sizes, &[]),
        &[
            "list: line 5: sector 301 has 512 bytes in the image, and the list says 1024",
            "list: line 6 is not of the form: sector, digest",
            "list: 2 of 3 lines fail; 2046 of the disk's 2048 sectors are left out",
        ],
    );
    // A list that has no SHA-256 at all, and numbers as 0x.
    let other =
        format!("%%%% HASHDEEP-1.0\n%%%% size,md5,filename\n512,{ZEROS},sector-0000000300\n");
    assert_eq!(compare(&folder, IMAGE, &other, &[]).status, Some(3));
    compare(&folder, IMAGE, &format!("0x12c {ZEROS}\n"), &[]).well();
}

#[test]
fn a_whole_disk_is_compared_with_lines_of_disks_alone() {
    let folder = Folder::new().with(&[IMAGE]);
    let whole = format!("{ZEROS}  sector-0000000300\n{ZEROS}  raw.img\n");
    let ran = compare(&folder, IMAGE, &whole, &["--whole", "--json"]);
    let said: serde_json::Value = serde_json::from_slice(&ran.out).expect("an object");
    let kinds: Vec<&str> = said["differences"]
        .as_array()
        .expect("a list")
        .iter()
        .map(|one| one["kind"].as_str().expect("a word"))
        .collect();
    assert_eq!((ran.status, kinds), (Some(3), vec!["unit", "digest"]));
    fails(
        &compare(&folder, IMAGE, "", &["--whole"]),
        &["list: there is no line to compare with"],
    );
}

#[test]
fn words_that_do_not_go_together_are_wrong_use() {
    let folder = Folder::new().with(&[IMAGE]);
    let wrong: [&[&str]; 7] = [
        &["--whole", "--grain"],
        &["--whole", "--first", "1"],
        &["--whole", "--count", "1"],
        &["--count", "0"],
        &["--format", "md5sum"],
        &["--format", "sha256sum", "--json"],
        &["--format", "sha256sum", "--list", "list"],
    ];
    for words in wrong {
        let ran = run(folder.path(), &[&["digest", IMAGE], words].concat());
        assert_eq!((ran.status, ran.out.len()), (Some(2), 0), "{words:?}");
    }
}

/// Cut by split into files of those names, a raw disk is checked by sha256sum with the list, and by hashdeep.
#[test]
fn other_programs_take_the_lists_and_make_such() {
    let folder = Folder::new().with(&[IMAGE]);
    run(folder.path(), &["raw", IMAGE, "-o", "raw"]).well();
    fs::create_dir(folder.at("cut")).expect("a folder");
    let cut = folder.at("cut");
    for (bytes, unit, more) in [
        ("512", "sector-", &[][..]),
        ("65536", "grain-", &["--grain"]),
    ] {
        ran(
            &cut,
            &["split", "-b", bytes, "-a", "10", "-d", "../raw", unit],
        );
        let sums = listed(&folder, IMAGE, &[more, &["--format", "sha256sum"]].concat());
        fs::write(folder.at("sums"), &sums).expect("written");
        ran(&cut, &["sha256sum", "-c", "--quiet", "--strict", "../sums"]);
        let own = ran(&cut, &["sh", "-c", &format!("sha256sum {unit}*")]);
        assert_eq!(own, sums);
        compare(&folder, IMAGE, &own, &[more, &["--complete"]].concat()).well();
        if there("hashdeep", "ANHKHOVET_HASHDEEP") {
            let deep = listed(&folder, IMAGE, &[more, &["--format", "hashdeep"]].concat());
            fs::write(folder.at("deep"), deep).expect("written");
            let audit = format!("hashdeep -b -a -k ../deep {unit}*");
            assert_eq!(ran(&cut, &["sh", "-c", &audit]), "hashdeep: Audit passed\n");
            let own = ran(&cut, &["sh", "-c", &format!("hashdeep {unit}*")]);
            compare(&folder, IMAGE, &own, &[more, &["--complete"]].concat()).well();
        }
    }
}
