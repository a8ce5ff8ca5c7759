//! Layers whose texts say that they are no parent and child: told by each command that takes a chain, a failure with --strict.

mod common;

use common::{run, Folder};
use std::fs;

const CHAIN: [&str; 3] = ["tool-base.vmdk", "tool-middle.vmdk", "tool-top.vmdk"];

/// Commands that take a chain, and the words after its layers.
const COMMANDS: [(&[&str], &[&str]); 10] = [
    (&["sector"], &["2"]),
    (&["explain"], &["2"]),
    (&["read"], &["2"]),
    (&["read"], &["2", "--count", "2"]),
    (&["map"], &[]),
    (&["map", "--coverage"], &[]),
    (&["digest", "--grain"], &[]),
    (&["digest", "--whole"], &[]),
    (&["raw"], &["-o", "out", "--force"]),
    (&["collapse"], &["-o", "out", "--force"]),
];

const TURNED: &str = "anhkhovet: tool-base.vmdk: its text has parentCID ffffffff (no parent), and tool-middle.vmdk below it has CID 11ad7983: by their texts they are no parent and child";

fn words<'a>(
    command: (&[&'a str], &[&'a str]),
    layers: &[&'a str],
    more: &[&'a str],
) -> Vec<&'a str> {
    [command.0, layers, command.1, more].concat()
}

#[test]
fn a_chain_in_its_order_is_told_of_nowhere() {
    let folder = Folder::new().with(&CHAIN);
    for command in COMMANDS {
        for more in [&[][..], &["--strict"], &["--json"]] {
            let ran = run(folder.path(), &words(command, &CHAIN, more));
            assert!(!ran.well().text().contains("unrelated"), "{command:?}");
        }
    }
}

#[test]
fn layers_that_changed_places_are_told_and_answered() {
    let folder = Folder::new().with(&CHAIN);
    let turned = [CHAIN[1], CHAIN[0]];
    for command in COMMANDS {
        let ran = run(folder.path(), &words(command, &turned, &[]));
        assert_eq!(
            (ran.status, ran.err.trim_end()),
            (Some(0), TURNED),
            "{command:?}"
        );
        let json = run(folder.path(), &words(command, &turned, &["--json"]));
        let member = "\"unrelated\":[{\"below\":\"tool-middle.vmdk\",\"cid\":\"11ad7983\",\"file\":\"tool-base.vmdk\",\"layer\":1,\"parent_cid\":\"ffffffff\"}]";
        assert!(json.text().contains(member), "{command:?}: {}", json.text());
        assert_eq!((json.status, json.err.trim_end()), (Some(0), TURNED));
    }
}

#[test]
fn strict_makes_it_a_failure_before_anything_is_written() {
    let folder = Folder::new().with(&CHAIN);
    let turned = [CHAIN[0], CHAIN[2], CHAIN[1]];
    let told = "tool-top.vmdk: its text has parentCID 11ad7983, and tool-base.vmdk below it has CID 22a7d899: by their texts they are no parent and child, and --strict takes no such layers";
    for command in COMMANDS {
        let ran = run(folder.path(), &words(command, &turned, &["--strict"]));
        assert_eq!(ran.err, format!("anhkhovet: {told}\n"), "{command:?}");
        assert_eq!((ran.status, ran.text().as_str()), (Some(1), ""));
        let json = run(
            folder.path(),
            &words(command, &turned, &["--strict", "--json"]),
        );
        assert_eq!(json.text(), format!("{{\"failed\":\"{told}\"}}\n"));
        assert_eq!(folder.names(), CHAIN);
    }
    // Not one of them alone: both are told.
    let both = run(folder.path(), &words(COMMANDS[0], &turned, &[]));
    assert_eq!(both.err.lines().count(), 2, "{}", both.err);
}

/// An image without a text, with one that the library does not take, and one whose text is outside: nothing is said of them.
#[test]
fn only_texts_are_compared() {
    let folder = Folder::new().with(&CHAIN);
    run(folder.path(), &["normal", CHAIN[1], "-o", "none"]).well();
    let change = |name: &str, at: usize, bytes: &[u8]| {
        let mut image = fs::read(folder.at(CHAIN[1])).expect("a sample");
        image[at..at + bytes.len()].copy_from_slice(bytes);
        fs::write(folder.at(name), image).expect("written");
    };
    let text = fs::read(folder.at(CHAIN[1])).expect("a sample");
    let at = text
        .windows(10)
        .position(|part| part == b"parentCID=")
        .expect("a key");
    change("faulty", at, b"otherword");
    change("outside", 38, &[1]);
    change("other", at + 10, b"01");
    for image in ["none", "faulty", "outside"] {
        for layers in [[CHAIN[0], image], [image, CHAIN[0]]] {
            run(folder.path(), &words(COMMANDS[0], &layers, &["--strict"])).well();
        }
    }
    let ran = run(folder.path(), &["sector", CHAIN[0], "other", "2"]);
    assert!(
        ran.err
            .contains("has parentCID 01a7d899, and tool-base.vmdk below it"),
        "{}",
        ran.err
    );
}

#[test]
fn commands_that_take_no_chain_know_no_such_word() {
    let folder = Folder::new().with(&CHAIN);
    for command in ["check", "survey", "profile", "describe"] {
        run(folder.path(), &[command, "--strict", CHAIN[0]]).ended(2, "--strict");
    }
}
