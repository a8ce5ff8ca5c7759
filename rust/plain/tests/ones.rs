//! Request A2: in a KDMV image an entry of 1 is zeros exactly in version 2 or 3 with flag 0x4; otherwise it is sector 1.

mod common;
#[path = "common/parts.rs"]
mod parts;
#[path = "common/versions.rs"]
mod versions;

use common::{kdmv, put32, put64, set};
use parts::{pack, put_entries, put_footer};
use plain::{chain, check, collapse, frame, header, lookup, normal, read, survey};
use plain::{Located, Part, ABSENT, PACKED, STORED, ZERO};
use versions::{of, SECTOR, ZEROS};

fn refused(image: &[u8]) -> (u64, u64) {
    let verdict = check(image);
    (verdict.number, verdict.place)
}

fn stored(sector: u64) -> Located {
    Located {
        kind: STORED,
        sector,
        ..Located::default()
    }
}

fn row(image: &[u8]) -> [u64; 6] {
    let (mut row, mut tally) = ([0; 6], [0; 63]);
    survey(image, &[image.len() as u64], &mut row, &mut tally);
    row
}

/// Five grains: the directory at sector 5, its table at sector 1.
fn low_table() -> Vec<u8> {
    let mut image = kdmv(33, 8, 30);
    put64(&mut image, 56, 5);
    put_entries(&mut image, 5, &[1]);
    put_entries(&mut image, 1, &[6, 0, 14]);
    image
}

/// Five grains, the second at sectors 1 to 8: the directory at sector 9, its table at sector 10.
fn low_grain() -> Vec<u8> {
    let mut image = kdmv(33, 8, 30);
    image[512..9 * 512].fill(7);
    put64(&mut image, 56, 9);
    put_entries(&mut image, 9, &[10]);
    put_entries(&mut image, 10, &[0, 1, 14]);
    image
}

#[test]
fn a_table_entry_of_1() {
    // Sector 1 is the directory's.
    let mut image = kdmv(33, 8, 30);
    set(&mut image, 2, 1);
    for head in ZEROS {
        let image = of(&image, head);
        assert_eq!(row(&image), [0, 1, 4, 0, 0, 0], "{head:?}");
        assert_eq!(
            (lookup(&image, 19).number, lookup(&image, 19).kind),
            (0, ZERO)
        );
        assert_eq!(read(&image, 19), Part::default());
    }
    for head in SECTOR {
        let image = of(&image, head);
        assert_eq!(row(&image), [0, 0, 0, 0, 12, 0], "{head:?}");
        assert_eq!(lookup(&image, 19), stored(4));
    }
}

#[test]
fn a_directory_entry_of_1() {
    let mut image = kdmv(4097, 8, 30);
    put_entries(&mut image, 1, &[2, 1]);
    for head in ZEROS {
        let image = of(&image, head);
        assert_eq!(row(&image), [0, 1, 512, 0, 0, 0], "{head:?}");
        assert_eq!(lookup(&image, 4096).kind, ZERO);
    }
    for head in SECTOR {
        let image = of(&image, head);
        assert_eq!(row(&image), [0, 0, 0, 0, 12, 0], "{head:?}");
        // The directory is its own second table, whose first entry is 2.
        assert_eq!(lookup(&image, 4096), stored(2));
    }
    // The table at sector 1 ends with the file, and its own entry of 1 is a grain past F; or it ends a sector past it.
    for (sectors, refusal) in [(5, (9, 0)), (4, (8, 4))] {
        let mut image = kdmv(16, 8, sectors);
        put_entries(&mut image, 1, &[1]);
        assert_eq!(refused(&of(&image, [2, 5])), (0, 0));
        assert_eq!(refused(&of(&image, [1, 1])), refusal, "{sectors}");
    }
}

#[test]
fn a_damaged_table_in_version_1() {
    // Three grains of 32 sectors, the last of which the damage moves to sector 1: up to the file's end, or one past it.
    for (sectors, refusal) in [(33, (12, 0)), (32, (9, 2))] {
        let mut image = of(&kdmv(96, 32, sectors), [1, 1]);
        assert_eq!(refused(&image), (0, 0));
        set(&mut image, 2, 1);
        assert_eq!(refused(&image), refusal, "{sectors}");
        let found = lookup(&image, 70);
        if sectors == 33 {
            assert_eq!(found, stored(7));
        } else {
            assert_eq!((found.number, found.place), (9, 2));
        }
    }
    let image = of(&low_grain(), [1, 1]);
    assert_eq!(refused(&image), (0, 0));
    assert_eq!(lookup(&image, 8), stored(1));
}

#[test]
fn flag_4_in_version_1() {
    let sound = kdmv(16, 8, 20);
    for (version, number) in [(1, 5), (2, 0), (3, 0)] {
        assert_eq!(refused(&of(&sound, [version, 0])), (0, 0));
        assert_eq!(refused(&of(&sound, [version, 4])), (number, 0));
    }
    let image = of(&sound, [1, 5]);
    assert_eq!((header(&image).number, lookup(&image, 0).number), (5, 5));
    assert_eq!(frame(&image, &mut [0; 9]).number, 5);
    assert_eq!(row(&image), [0, 0, 0, 0, 5, 0]);
    assert_eq!(normal(&image, 0).unwrap_err().number, 5);
    let located = chain(&[&sound[..], &image].concat(), &[20 * 512, 20 * 512], 0);
    assert_eq!((located.number, located.layer), (5, 1));
    // Version and newline bytes are judged before, sizes after.
    for (at, value, number) in [(4, 0, 3), (73, 0, 4), (20, 12, 5)] {
        let mut image = image.clone();
        image[at] = value;
        assert_eq!(refused(&image), (number, 0), "{at}");
    }
}

#[test]
fn a_table_at_sector_1() {
    let image = low_table();
    for head in SECTOR {
        let image = of(&image, head);
        assert_eq!(row(&image), [2, 0, 3, 0, 0, 0], "{head:?}");
        assert_eq!(lookup(&image, 3), stored(9));
        assert_eq!(lookup(&image, 8).kind, ABSENT);
        let mut list = [0; 9];
        assert_eq!(frame(&image, &mut list).count, 3);
        assert_eq!(list, [1, 0, 1, 3, 5, 1, 5, 1, 4]);
    }
    for head in ZEROS {
        let image = of(&image, head);
        assert_eq!(row(&image), [0, 5, 0, 0, 0, 0], "{head:?}");
        assert_eq!(frame(&image, &mut [0; 9]).count, 2);
    }
}

#[test]
fn a_grain_at_sector_1() {
    let image = low_grain();
    let grain = Part {
        at: 4 * 512,
        length: 512,
    };
    for head in SECTOR {
        let image = of(&image, head);
        assert_eq!(row(&image), [2, 0, 3, 0, 0, 0], "{head:?}");
        assert_eq!((lookup(&image, 11), read(&image, 11)), (stored(4), grain));
        let written = normal(&image, 1 << 20).unwrap();
        assert_eq!((written.len(), refused(&written)), (24 * 512, (0, 0)));
        assert_eq!(written[2 * 512..2 * 512 + 8], [0, 0, 0, 0, 8, 0, 0, 0]);
        assert!(written[8 * 512..16 * 512].iter().all(|byte| *byte == 7));
    }
    for head in ZEROS {
        let image = of(&image, head);
        assert_eq!(row(&image), [1, 1, 3, 0, 0, 0], "{head:?}");
        let written = normal(&image, 1 << 20).unwrap();
        assert_eq!(written[2 * 512..2 * 512 + 8], [0, 0, 0, 0, 1, 0, 0, 0]);
    }
}

#[test]
fn a_packed_grain_at_sector_1() {
    let mut image = kdmv(16, 8, 12);
    pack(&mut image);
    put_entries(&mut image, 3, &[4]);
    put_entries(&mut image, 4, &[1]);
    put64(&mut image, 512, 0);
    put32(&mut image, 512 + 8, 513);
    for (head, counts) in [([3, 1], [0, 0, 1, 1, 0, 0]), ([3, 5], [0, 1, 1, 0, 0, 0])] {
        let mut image = of(&image, head);
        put_footer(&mut image, 3);
        assert_eq!(row(&image), counts);
        let (found, part) = (lookup(&image, 5), read(&image, 5));
        if head == [3, 1] {
            assert_eq!((found.kind, found.sector, found.size), (PACKED, 1, 513));
            assert_eq!((part.at, part.length), (512 + 12, 513));
        } else {
            assert_eq!((found.kind, part), (ZERO, Part::default()));
        }
    }
}

#[test]
fn directories_that_differ() {
    // The directories stand at sectors 20 and 21; from 1 to 19 every table is empty.
    let mut image = kdmv(25, 8, 40);
    put64(&mut image, 48, 21);
    put64(&mut image, 56, 20);
    put_entries(&mut image, 1, &[0]);
    for (primary, redundant, sector, zeros) in [
        (5, 9, 0, 0),
        (0, 0, 0, 0),
        // Two tables; those at sectors 1 and 2 meet.
        (1, 5, 0, 11),
        (5, 1, 0, 11),
        (1, 2, 12, 11),
        (2, 1, 12, 11),
        // One table named twice, or zeros in both.
        (1, 1, 12, 0),
        (1, 0, 11, 11),
        (0, 1, 11, 11),
    ] {
        put_entries(&mut image, 20, &[primary]);
        put_entries(&mut image, 21, &[redundant]);
        for (heads, number) in [(&SECTOR[..], sector), (&ZEROS[..], zeros)] {
            for head in heads {
                let answer = refused(&of(&image, *head));
                assert_eq!(answer, (number, 0), "{primary} {redundant} {head:?}");
            }
        }
    }
    // Tables at sectors 1 and 5 that differ in an entry in use.
    put_entries(&mut image, 20, &[1]);
    put_entries(&mut image, 21, &[5]);
    put_entries(&mut image, 5, &[0, 0, 0, 22]);
    for head in SECTOR {
        assert_eq!(refused(&of(&image, head)), (11, 0));
    }
}

#[test]
fn tables_that_differ() {
    let mut image = kdmv(25, 8, 40);
    put64(&mut image, 48, 21);
    put64(&mut image, 56, 20);
    put_entries(&mut image, 20, &[12]);
    put_entries(&mut image, 21, &[16]);
    for (primary, redundant, number) in [(1, 1, 0), (1, 2, 11), (2, 1, 11), (1, 0, 11), (0, 1, 11)]
    {
        put_entries(&mut image, 12, &[0, 0, primary]);
        put_entries(&mut image, 16, &[0, 0, redundant]);
        for head in SECTOR.iter().chain(&ZEROS) {
            assert_eq!(
                refused(&of(&image, *head)),
                (number, 0),
                "{primary} {redundant}"
            );
        }
    }
}

#[test]
fn layers_of_both_meanings() {
    let (sector, zeros) = (of(&low_grain(), [1, 1]), of(&low_grain(), [3, 5]));
    let lengths = [30 * 512; 2];
    for (lower, upper, kind, entry) in [(&sector, &zeros, ZERO, 1), (&zeros, &sector, STORED, 8)] {
        let found = chain(&[&lower[..], upper].concat(), &lengths, 8);
        assert_eq!((found.number, found.layer, found.kind), (0, 1, kind));
        let written = collapse(lower, upper, 1 << 20).unwrap();
        // Version 2 and flags 5, whatever the layers have.
        assert_eq!(
            (written[4], written[8], written[2 * 512 + 4]),
            (2, 5, entry)
        );
        assert_eq!(lookup(&written, 8).kind, kind);
    }
}
