//! The descriptor's grammar, both sides of its edges.

use plain::{descriptor, find, Extent};

const SOUND: &str = "# Disk DescriptorFile\nversion=1\nCID=fffffffe\nparentCID=ffffffff\ncreateType=\"monolithicSparse\"\n\nRW 100 SPARSE \"a.vmdk\"\n";

fn refused(text: &str) -> (u64, u64) {
    let (answer, list) = descriptor(text.as_bytes(), 32);
    assert!(answer.number == 0 || list.is_empty());
    (answer.number, answer.place)
}

fn with(line: &str) -> (u64, u64) {
    refused(&format!("{SOUND}{line}"))
}

#[test]
fn a_sound_text() {
    let (answer, list) = descriptor(SOUND.as_bytes(), 1);
    assert_eq!((answer.number, answer.extents, answer.version), (0, 1, 1));
    assert_eq!((answer.cid, answer.parent_cid), (0xffff_fffe, 0xffff_ffff));
    let place = |word: &str| SOUND.find(word).unwrap() as u64;
    assert_eq!(
        (answer.type_at, answer.type_length),
        (place("monolithic"), 16)
    );
    assert_eq!((list[0].name_at, list[0].name_length), (place("a.vmdk"), 6));
    assert_eq!((list[0].access, list[0].kind, list[0].sectors), (1, 3, 100));
    assert_eq!(descriptor(SOUND.as_bytes(), 0).0.number, 21);
}

#[test]
fn extent_lines() {
    for line in [
        "rw 1 zero",
        "\r RDONLY\t 2147483548 \t VMFS \"x\"",
        "NOACCESS 0000000001 FLAT \"a b\r\" 4294967295\r",
        "RW 1 VmfsSparse \"x\"",
        "RW 1 VMFS \"x\" 0",
    ] {
        assert_eq!(with(line), (0, 0), "{line}");
    }
    for line in [
        "RW",
        "RW = 1",
        "RW 0 ZERO",
        "RW 2147483649 ZERO",
        "RW 00000000001 ZERO",
        "RW 1 ZERO 0",
        "RW 1 ZERO \"x\"",
        "RW 1 FLAT \"x\"",
        "RW 1 FLAT \"x\" 4294967296",
        "RW 1 FLAT\"x\" 0",
        "RW 1 FLAT \"x\"0",
        "RW 1 FLAT \"x\" 0 0",
        "RW 1 SPARSE \"\"",
        "RW 1 SPARSE \"x",
        "RW 1 SPARSE \"x\" 0",
        "RW 1\r ZERO",
        "RW 1 OTHER \"x\"",
        "RW 1",
    ] {
        assert_eq!(with(line), (34, 8), "{line}");
    }
    let name = |length| format!("RW 1 SPARSE \"{}\"", "n".repeat(length));
    assert_eq!(with(&name(255)), (0, 0));
    assert_eq!(with(&name(256)), (34, 8));
}

#[test]
fn key_lines() {
    for line in [
        "RW=1",
        "ddb.x = \"y\"",
        "a==",
        "# no form",
        "x =",
        "RW\r1=2",
    ] {
        assert_eq!(with(line), (0, 0), "{line}");
    }
    for line in ["no form", "= 1", " \t= 1", "RW\r1"] {
        assert_eq!(with(line), (32, 8), "{line}");
    }
    for line in [
        "VERSION=1",
        "version=x",
        "cid = 1",
        "PARENTcid=",
        "createtype=\"\"",
    ] {
        assert_eq!(with(line), (33, 8), "{line}");
    }
    for (from, to, expected) in [
        ("version=1", "Version = 0000000003", (0, 0)),
        ("version=1", "version=00000000003", (33, 2)),
        ("version=1", "version=4", (33, 2)),
        ("version=1", "version=0", (33, 2)),
        ("version=1", "", (33, 0)),
        ("CID=fffffffe", "CID=aBcDeF01", (0, 0)),
        ("CID=fffffffe", "CID=0fffffffe", (33, 3)),
        ("CID=fffffffe", "CID=g", (33, 3)),
        ("\"monolithicSparse\"", "\"\"", (0, 0)),
        ("\"monolithicSparse\"", "\"", (33, 5)),
        ("\"monolithicSparse\"", "\"a\"b\"", (33, 5)),
    ] {
        assert_eq!(refused(&SOUND.replacen(from, to, 1)), expected, "{to}");
    }
}

#[test]
fn whole_texts() {
    assert_eq!(refused(""), (30, 0));
    assert_eq!(refused("\n \r\n# disk descriptorfile"), (33, 0));
    assert_eq!(refused("# Disk Descriptor File"), (30, 0));
    assert_eq!(refused("x\0\0y"), (31, 0));
    assert_eq!(with("\0\0"), (0, 0));
    assert_eq!(with("RW 2147483548 ZERO"), (0, 0));
    assert_eq!(with("RW 2147483549 ZERO"), (35, 0));
    assert_eq!(refused(&SOUND.replacen("RW", "#", 1)), (35, 0));
    assert_eq!(with(&"RW 1 ZERO\n".repeat(31)), (0, 0));
    assert_eq!(with(&"RW 1 ZERO\n".repeat(32)), (35, 0));
    let mut text = SOUND.as_bytes().to_vec();
    text.resize(65_536, 0);
    assert_eq!(descriptor(&text, 32).0.number, 0);
    text.push(0);
    assert_eq!(descriptor(&text, 32).0.number, 36);
}

#[test]
fn finding() {
    let record = |first, sectors| Extent {
        first,
        sectors,
        ..Extent::default()
    };
    let list = [
        record(5, 0),
        record(5, 2),
        record(6, 9),
        record(u64::MAX, 2),
    ];
    let found = |sector| (find(&list, sector).number, find(&list, sector).extent);
    assert_eq!(found(4), (20, 0));
    assert_eq!(found(5), (0, 1));
    assert_eq!(found(6), (0, 1));
    assert_eq!(found(7), (0, 2));
    assert_eq!(found(15), (20, 0));
    assert_eq!(found(u64::MAX), (0, 3));
    assert_eq!(found(0), (20, 0));
    assert_eq!(find(&[], 0).number, 20);
}
