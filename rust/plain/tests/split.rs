//! Request A4: which sectors a split disk serves, and from where.

mod common;
#[path = "common/cowd.rs"]
mod cowd;
#[path = "common/disks.rs"]
mod disks;
#[path = "common/parts.rs"]
mod parts;

use common::{kdmv, put64, set};
use cowd::cowd;
use disks::{ask, refused, stored, zeros};
use parts::{pack, put_entries, put_footer};
use plain::{check, lookup, Located, ABSENT, PACKED, ZERO};

const SPARSE: &str = "RW 20 SPARSE \"s\"";
const OTHER: &str = "RDONLY 17 SPARSE \"t\"";

/// Three grains, the last of four sectors: stored at sector 6, zero, stored at sector 14.
fn sparse() -> Vec<u8> {
    let mut image = kdmv(20, 8, 22);
    put_entries(&mut image, 2, &[6, 1, 14]);
    image
}

/// Three grains, the last of one sector: absent, stored at sector 6, absent.
fn other() -> Vec<u8> {
    let mut image = kdmv(17, 8, 14);
    set(&mut image, 1, 6);
    image
}

#[test]
fn plain_sectors() {
    for kind in ["FLAT", "VMFS"] {
        for (offset, f) in [(0, 10), (3, 13), (3, 20)] {
            let line = format!("RW 10 {kind} \"a\" {offset}");
            let file = vec![7; 512 * f];
            assert_eq!(ask(&[&line], &[&file], 0), stored(0, offset), "{line}");
            assert_eq!(ask(&[&line], &[&file], 9), stored(0, offset + 9), "{line}");
            assert_eq!(refused(&[&line], &[&file], 10), (20, 0, 0));
        }
    }
    let file = [7; 5120];
    assert_eq!(ask(&["rw 10 vmfs \"a\""], &[&file], 4), stored(0, 4));
}

#[test]
fn a_file_that_ends_with_the_line_or_later() {
    for kind in ["FLAT", "VMFS"] {
        let line = format!("RW 10 {kind} \"a\" 3");
        for (length, number) in [
            (13 * 512, 0),
            (13 * 512 + 1, 0),
            (14 * 512, 0),
            (13 * 512 - 1, 45),
            (12 * 512, 45),
            (10 * 512, 45),
            (3 * 512, 45),
            (0, 45),
        ] {
            // Every sector of the line needs the whole of it.
            for sector in [0, 9] {
                let answer = ask(&[&line], &[&vec![7; length]], sector);
                assert_eq!(answer.number, number, "{kind} {length} {sector}");
            }
        }
    }
    let file = [7; 5120];
    assert_eq!(ask(&["RW 10 VMFS \"a\""], &[&file], 9), stored(0, 9));
    assert_eq!(refused(&["RW 10 VMFS \"a\""], &[&file[1..]], 0), (45, 0, 0));
    assert_eq!(refused(&["RW 10 VMFS \"a\" 1"], &[&file], 0), (45, 0, 0));
}

#[test]
fn sums_past_u32() {
    let file = [7; 1024];
    for line in [
        "RW 1 FLAT \"a\" 4294967295",
        "RW 2 FLAT \"a\" 4294967295",
        "RW 2147483648 FLAT \"a\" 2147483648",
        "RW 2147483648 VMFS \"a\" 2147483649",
        "RW 2147483648 VMFS \"a\" 4294967295",
    ] {
        assert_eq!(refused(&[line], &[&file], 0), (45, 0, 0), "{line}");
    }
}

#[test]
fn zeros_without_a_file() {
    let line = "RW 2147483648 ZERO";
    assert_eq!(ask(&[line], &[b""], 0), zeros(0));
    assert_eq!(ask(&[line], &[b""], (1 << 31) - 1), zeros(0));
    assert_eq!(refused(&[line], &[b""], 1 << 31), (20, 0, 0));
    assert_eq!(refused(&[line], &[b"\0"], 0), (45, 0, 0));
    assert_eq!(refused(&[line], &[&[0; 512]], 5), (45, 0, 0));
}

#[test]
fn images_as_their_lookup_has_them() {
    for (line, file, capacity) in [(SPARSE, sparse(), 20), (OTHER, other(), 17)] {
        assert_eq!(check(&file).capacity, capacity);
        for sector in 0..capacity {
            let expected = Located {
                layer: 1,
                ..lookup(&file, sector)
            };
            let answer = ask(&["RW 7 ZERO", line], &[b"", &file], 7 + sector);
            assert_eq!(answer, expected, "{line} {sector}");
        }
    }
    let kinds = |line, file: &[u8], last| {
        let kind = |sector| ask(&[line], &[file], sector).kind;
        [0, 8.min(last - 1), last].map(kind)
    };
    assert_eq!(kinds(SPARSE, &sparse(), 19), [2, ZERO, 2]);
    assert_eq!(kinds(OTHER, &other(), 16), [ABSENT, 2, ABSENT]);
}

#[test]
fn packed_grains() {
    let mut image = kdmv(12, 8, 10);
    pack(&mut image);
    put_footer(&mut image, 1);
    set(&mut image, 1, 6);
    put64(&mut image, 6 * 512, 8);
    put64(&mut image, 6 * 512 + 8, 700);
    assert_eq!(check(&image).number, 0);
    let expected = Located {
        layer: 1,
        kind: PACKED,
        sector: 6,
        size: 700,
        offset: 3,
        ..Located::default()
    };
    let lines = ["RW 3 ZERO", "RW 12 SPARSE \"p\""];
    assert_eq!(ask(&lines, &[b"", &image], 3 + 11), expected);
    // Where the line and the capacity differ, no sector is served.
    for sectors in ["11", "13"] {
        let line = format!("RW {sectors} SPARSE \"p\"");
        assert_eq!(refused(&[lines[0], &line], &[b"", &image], 3), (38, 1, 0));
    }
}

#[test]
fn first_and_last_sectors_of_each_extent() {
    let lines = [
        "RW 10 FLAT \"a\" 2",
        "RW 3 ZERO",
        SPARSE,
        "RW 1 ZERO",
        "RDONLY 4 VMFS \"b\"",
        OTHER,
        "rdonly 1 flat \"d\" 0",
    ];
    let (long, short) = ([1; 12 * 512], [2; 4 * 512]);
    let (sparse, other) = (sparse(), other());
    let files: [&[u8]; 7] = [&long, b"", &sparse, b"", &short, &other, &short[..512]];
    let absent = Located {
        layer: 5,
        ..Located::default()
    };
    for (sector, expected) in [
        (0, stored(0, 2)),
        (9, stored(0, 11)),
        (10, zeros(1)),
        (12, zeros(1)),
        (13, stored(2, 6)),
        (21, zeros(2)),
        (32, stored(2, 17)),
        (33, zeros(3)),
        (34, stored(4, 0)),
        (37, stored(4, 3)),
        (38, absent),
        (45, absent),
        (46, stored(5, 6)),
        (53, stored(5, 13)),
        (54, absent),
        (55, stored(6, 0)),
    ] {
        assert_eq!(ask(&lines, &files, sector), expected, "{sector}");
    }
    for sector in [56, 57, 1 << 31, 1 << 32, u64::MAX] {
        assert_eq!(refused(&lines, &files, sector), (20, 0, 0), "{sector}");
    }
}

#[test]
fn as_many_extents_as_there_can_be() {
    let lines = ["RW 1 FLAT \"a\" 1"; 32];
    let file = [0; 1024];
    let files: Vec<&[u8]> = vec![&file; 32];
    assert_eq!(ask(&lines, &files, 31), stored(31, 1));
    let lines = ["RW 1 FLAT \"a\" 1"; 33];
    let files: Vec<&[u8]> = vec![&file; 33];
    assert_eq!(refused(&lines, &files, 0), (35, 0, 0));
}

#[test]
fn any_bytes_are_plain_sectors() {
    // An image, sound or not, is a file like any other under FLAT and VMFS.
    for file in [
        sparse(),
        cowd(22, 8, 1, 37),
        kdmv(0, 7, 22),
        cowd(0, 0, 0, 22),
    ] {
        assert_eq!(ask(&["RW 20 FLAT \"a\" 2"], &[&file], 3), stored(0, 5));
        assert_eq!(ask(&["RW 22 VMFS \"a\""], &[&file], 21), stored(0, 21));
    }
}

#[test]
fn only_its_own_file_is_judged() {
    let lines = [
        "RW 5 SPARSE \"a\"",
        "NOACCESS 5 ZERO",
        "RW 5 FLAT \"a\" 0",
        "RW 5 VMFS \"a\" 9",
        "RW 5 ZERO",
        "RW 5 VMFSSPARSE \"a\"",
    ];
    let good = [0; 2560];
    let files: [&[u8]; 6] = [b"COWD", b"x", &good, &good, b"x", &good];
    for (sector, expected) in [(0, 45), (5, 39), (15, 45), (20, 45), (25, 43)] {
        let extent = sector / 5;
        assert_eq!(refused(&lines, &files, sector), (expected, extent, 0));
    }
    assert_eq!(ask(&lines, &files, 14), stored(2, 4));
}
