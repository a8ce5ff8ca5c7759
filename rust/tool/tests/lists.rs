//! `digest --list`: an image compared with a list.

mod common;

use common::{run, Folder, Ran};
use std::fs;

const FILES: [&str; 2] = ["tool-base.vmdk", "tool-packed.vmdk"];

/// What a sector or a grain of zeros has.
const ZEROS: &str = "076a27c79e5ace2a3d47f9dd2e83e4ff6ea8872b3c2218f66c92b89b55f36560";

fn compare(folder: &Folder, image: &str, list: &[u8], more: &[&str]) -> Ran {
    fs::write(folder.at("list"), list).expect("written");
    run(
        folder.path(),
        &[&["digest", image, "--list", "list"], more].concat(),
    )
}

fn printed(folder: &Folder, image: &str, more: &[&str]) -> String {
    run(folder.path(), &[&["digest", image], more].concat())
        .well()
        .text()
}

/// The list does not hold: these are the lines on standard output, and nothing is on standard error.
fn fails(ran: &Ran, lines: &[&str]) {
    assert_eq!((ran.status, ran.err.as_str()), (Some(3), ""));
    assert_eq!(ran.text().lines().collect::<Vec<_>>(), lines);
}

#[test]
fn what_is_printed_agrees_and_is_complete() {
    let folder = Folder::new().with(&FILES);
    for image in FILES {
        for more in [&["--complete"][..], &["--complete", "--grain"][..]] {
            let list = printed(&folder, image, &more[1..]);
            let ran = compare(&folder, image, list.as_bytes(), more);
            let none = "none of the disk's";
            assert!(ran.well().text().contains(none), "{}", ran.text());
        }
    }
}

#[test]
fn sectors_have_a_line_each_and_packed_grains_one() {
    let folder = Folder::new().with(&FILES);
    assert_eq!(printed(&folder, FILES[0], &[]).lines().count(), 2048);
    let packed = printed(&folder, FILES[1], &[]);
    // Two packed grains of sixteen.
    assert_eq!(packed.lines().count(), 14 * 128 + 2);
    let told: Vec<&str> = packed
        .lines()
        .filter(|line| line.ends_with(" packed"))
        .collect();
    assert!(told[0].starts_with("128 ") && told[1].starts_with("384 ") && told.len() == 2);
}

#[test]
fn a_part_of_a_list_and_other_forms_agree() {
    let folder = Folder::new().with(&FILES);
    let all = printed(&folder, FILES[0], &[]);
    let line = all.lines().nth(2).expect("a line");
    let (_, digest) = line.split_once(' ').expect("a digest");
    let plain = format!("# sector, digest\n\n2, {}\r\n", digest.to_uppercase());
    let marked = format!("\u{feff}2 {digest}\r\n\r\n\t# caf\u{e9}\r\n");
    let latin = [b"# caf\xe9\n2\t", digest.as_bytes()].concat();
    for list in [plain.as_bytes(), marked.as_bytes(), &latin] {
        let ran = compare(&folder, FILES[0], list, &[]);
        assert_eq!(
            ran.well().text(),
            "list: all 1 digests agree; 2047 of the disk's 2048 sectors are left out\n"
        );
        let ran = compare(&folder, FILES[0], list, &["--json"]);
        assert_eq!(
            ran.well().text(),
            "{\"differences\":[],\"still_open\":false,\"agree\":true,\"compared\":1,\"disk\":2048,\"left_out\":2047,\"of\":\"sector\"}\n"
        );
    }
}

#[test]
fn what_is_left_out_is_a_failure_if_the_list_is_to_be_complete() {
    let folder = Folder::new().with(&FILES);
    let list = format!("1000 {ZEROS}\n1001 {ZEROS}\n");
    fails(
        &compare(&folder, FILES[0], list.as_bytes(), &["--complete"]),
        &["list: all 2 digests agree; 2046 of the disk's 2048 sectors are left out, so it is not complete"],
    );
    let ran = compare(
        &folder,
        FILES[0],
        list.as_bytes(),
        &["--complete", "--json"],
    );
    fails(&ran, &["{\"differences\":[],\"still_open\":false,\"agree\":false,\"compared\":2,\"disk\":2048,\"left_out\":2046,\"of\":\"sector\"}"]);
    // A packed grain's line stands for all of its sectors.
    let packed = printed(&folder, FILES[1], &[]);
    let line = packed.lines().nth(128).expect("a line");
    let ran = compare(&folder, FILES[1], line.as_bytes(), &[]);
    assert_eq!(
        ran.well().text(),
        "list: all 1 digests agree; 1920 of the disk's 2048 sectors are left out\n"
    );
}

#[test]
fn all_differences_are_told() {
    let folder = Folder::new().with(&FILES);
    let list: String = (1000..1010)
        .rev()
        .chain(0..2)
        .map(|sector| format!("{sector} {ZEROS}\n"))
        .collect();
    let found = "32beecb58a128af8248504600bd203dcc676adf41045300485655e6b8780a01d";
    let differs =
        |sector| format!("sector {sector} differs: the list has {ZEROS}, the image {found}");
    fails(
        &compare(&folder, FILES[0], list.as_bytes(), &[]),
        &[
            &format!("list: line 11: {}", differs(0)),
            &format!("list: line 12: {}", differs(1)),
            "list: 2 of 12 lines fail; 2036 of the disk's 2048 sectors are left out",
        ],
    );
    let object = |line: u64, sector: u64| {
        let sentence = differs(sector);
        format!("{{\"found\":\"{found}\",\"kind\":\"digest\",\"line\":{line},\"listed\":\"{ZEROS}\",\"sector\":{sector},\"sentence\":\"line {line}: {sentence}\"}}")
    };
    let (first, second) = (object(11, 0), object(12, 1));
    let rest = "\"still_open\":false,\"agree\":false,\"compared\":12,\"disk\":2048,\"left_out\":2036,\"of\":\"sector\"";
    fails(
        &compare(&folder, FILES[0], list.as_bytes(), &["--json"]),
        &[&format!("{{\"differences\":[{first},{second}],{rest}}}")],
    );
}

#[test]
fn a_sector_that_is_named_twice_is_told_by_its_line() {
    let folder = Folder::new().with(&FILES);
    let list = format!("1000 {ZEROS}\n").repeat(2048);
    let ran = compare(&folder, FILES[0], list.as_bytes(), &[]);
    assert_eq!(ran.status, Some(3));
    let text = ran.text();
    let mut lines = text.lines();
    assert_eq!(
        lines.next(),
        Some("list: line 2: sector 1000 is named by a line before")
    );
    assert_eq!(
        lines.last(),
        Some("list: 2047 of 2048 lines fail; 2047 of the disk's 2048 sectors are left out")
    );
    let grains = printed(&folder, FILES[1], &["--grain"]);
    let twice = format!("{grains}{}\n", grains.lines().nth(1).expect("a line"));
    fails(
        &compare(&folder, FILES[1], twice.as_bytes(), &["--grain"]),
        &[
            "list: line 17: sector 128 is named by a line before",
            "list: 1 of 17 lines fail; none of the disk's 16 grains is left out",
        ],
    );
}

#[test]
fn packed_and_open_digests_are_not_mixed_up() {
    let folder = Folder::new().with(&FILES);
    let packed = printed(&folder, FILES[1], &["--grain"]);
    let line = packed.lines().nth(1).expect("a line");
    let open = line.trim_end_matches(" packed");
    compare(&folder, FILES[1], line.as_bytes(), &["--grain"]).well();
    let first = |ran: Ran| {
        assert_eq!(ran.status, Some(3));
        ran.text().lines().next().expect("a line").to_string()
    };
    assert_eq!(
        first(compare(&folder, FILES[1], open.as_bytes(), &["--grain"])),
        "list: line 1: sector 128 is packed in the image, in the grain from sector 128 on, and the list has a digest of open bytes"
    );
    assert_eq!(
        first(compare(&folder, FILES[0], line.as_bytes(), &["--grain"])),
        "list: line 1: sector 128 is not packed in the image, and the list says that it is"
    );
    let inside = line.replace("128 ", "130 ");
    assert_eq!(
        first(compare(&folder, FILES[1], inside.as_bytes(), &[])),
        "list: line 1: sector 130 is not the first of its grain, which is 128"
    );
}

#[test]
fn lines_of_no_form_and_past_the_end_are_told_and_the_rest_compared() {
    let folder = Folder::new().with(&FILES);
    let list = format!(
        "# a list\n0 1234\nzero\n0 {ZEROS} closed\n0 {ZEROS} packed packed\n-1 {ZEROS}\n\
         2048 {ZEROS}\n18446744073709551615 {ZEROS}\n18446744073709551616 {ZEROS}\n1000 {ZEROS}\n"
    );
    let form = |line: u64| format!("list: line {line} is not of the form: sector, digest");
    let past = |line: u64, sector: &str| {
        format!(
            "list: line {line}: sector {sector} is past the end of the disk, whose last is 2047"
        )
    };
    fails(
        &compare(&folder, FILES[0], list.as_bytes(), &[]),
        &[
            &form(2),
            &form(3),
            &form(4),
            &form(5),
            &form(6),
            &past(7, "2048"),
            &past(8, "18446744073709551615"),
            &form(9),
            "list: 8 of 9 lines fail; 2047 of the disk's 2048 sectors are left out",
        ],
    );
    let inside = format!("5 {ZEROS}\n");
    fails(
        &compare(&folder, FILES[0], inside.as_bytes(), &["--grain"]),
        &[
            "list: line 1: sector 5 is not the first of its grain, which is 0",
            "list: 1 of 1 lines fail; 16 of the disk's 16 grains are left out",
        ],
    );
    fails(
        &compare(&folder, FILES[0], b"# nothing\n", &[]),
        &["list: there is no line to compare with; 2048 of the disk's 2048 sectors are left out"],
    );
}

/// More lines than are worked on at once, in disorder: what differs is told in the list's order.
#[test]
fn a_long_list_in_any_order() {
    let folder = Folder::new().with(&FILES);
    let all = printed(&folder, FILES[0], &[]);
    let mut lines: Vec<String> = all.lines().map(str::to_string).collect();
    lines.reverse();
    lines.rotate_left(700);
    compare(
        &folder,
        FILES[0],
        lines.join("\n").as_bytes(),
        &["--complete"],
    )
    .well();

    let mut wanted = Vec::new();
    for number in (0..lines.len()).step_by(97) {
        let (sector, _) = lines[number].split_once(' ').expect("a digest");
        wanted.push(format!(
            "list: line {}: sector {sector} differs",
            number + 1
        ));
        lines[number] = format!("{sector} {}", "1".repeat(64));
    }
    let twice = lines.clone();
    lines.extend(twice);
    let ran = compare(&folder, FILES[0], lines.join("\n").as_bytes(), &[]);
    assert_eq!(ran.status, Some(3));
    let text = ran.text();
    let told: Vec<&str> = text.lines().collect();
    assert_eq!(told.len(), wanted.len() + 2048 + 1);
    for (told, wanted) in told.iter().zip(&wanted) {
        assert!(told.starts_with(wanted), "{told}, not {wanted}");
    }
    for (number, told) in told[wanted.len()..].iter().take(2048).enumerate() {
        let start = format!("list: line {}: sector ", 2048 + number + 1);
        assert!(
            told.starts_with(&start) && told.ends_with("a line before"),
            "{told}"
        );
    }
}

/// Sectors in a row of one packed grain, each named as if it were open.
#[test]
fn each_sector_of_a_packed_grain() {
    let folder = Folder::new().with(&FILES);
    let list: String = (127..257)
        .map(|sector| format!("{sector} {ZEROS}\n"))
        .collect();
    let ran = compare(&folder, FILES[1], list.as_bytes(), &[]);
    assert_eq!(ran.status, Some(3));
    let text = ran.text();
    let told: Vec<&str> = text.lines().collect();
    assert_eq!(told.len(), 128 + 1, "{text}");
    for (number, told) in told.iter().take(128).enumerate() {
        let start = format!(
            "list: line {}: sector {} is packed",
            number + 2,
            number + 128
        );
        assert!(told.starts_with(&start), "{told}");
    }
}
