//! Request A7: refusal 40, on both sides of the edge of each of its grounds.

mod common;
#[path = "common/laid.rs"]
mod laid;
#[path = "common/mends.rs"]
mod mends;
#[path = "common/parts.rs"]
mod parts;

use common::{kdmv, put32, put64};
use laid::{closed, furnished, with, SECOND};
use mends::{assert_40, changes, mended, refused, PRIMARY, REDUNDANT};
use parts::put_entries;
use plain::check;

/// Headers where an entry of 1 is a sector, and where it is zeros, by version and the flags' first byte.
const SECTOR: [[u8; 2]; 3] = [[1, 1], [2, 1], [3, 1]];
const ZEROS: [[u8; 2]; 2] = [[2, 5], [3, 5]];

/// An image with another version and other flags.
fn of(image: &[u8], [version, flags]: [u8; 2]) -> Vec<u8> {
    let mut image = image.to_vec();
    (image[4], image[8]) = (version, flags);
    image
}

/// Whether sectors `first` to `first + 3` have one of these areas' sectors, each from its first to its last.
fn meets(first: u32, areas: &[(u32, u32)]) -> bool {
    areas
        .iter()
        .any(|(start, end)| first <= *end && first + 3 >= *start)
}

#[test]
fn no_redundant_directory() {
    for good in [PRIMARY, REDUNDANT] {
        let mut image = with(&[(30, &[1])]);
        put64(&mut image, 48, 0);
        assert_40(&image, good);
        put64(&mut image, 48, 5);
        assert_eq!(mended(&image, good).1.len(), 1);
        assert_40(&closed(), good);
        // It does not matter what else is wrong: a grain past F, a grain twice.
        put64(&mut image, 48, 0);
        for entries in [[74, 0, 66], [58, 0, 58]] {
            put_entries(&mut image, 10, &entries);
            assert_40(&image, good);
        }
    }
}

#[test]
fn absent_zero_and_tables_in_other_places() {
    // The directories stand at sectors 20 and 21; the table at 9 has an entry of its own.
    let mut image = kdmv(25, 8, 40);
    put64(&mut image, 48, 21);
    put64(&mut image, 56, 20);
    put_entries(&mut image, 1, &[0]);
    put_entries(&mut image, 9, &[0, 22]);
    for (primary, redundant, sector, zeros) in [
        (5, 9, true, true),
        (0, 0, true, true),
        // Two tables, or zeros and a table.
        (1, 9, true, false),
        (9, 1, true, false),
        // One table named twice, or zeros in both.
        (1, 1, false, true),
        // Two tables that meet at sector 4, and two that do not.
        (1, 4, false, false),
        (1, 5, true, false),
        (0, 1, false, false),
        (1, 0, false, false),
        (0, 9, false, false),
        (9, 0, false, false),
    ] {
        put_entries(&mut image, 20, &[primary]);
        put_entries(&mut image, 21, &[redundant]);
        for (heads, answered) in [(&SECTOR[..], sector), (&ZEROS[..], zeros)] {
            for head in heads {
                let image = of(&image, *head);
                for good in [PRIMARY, REDUNDANT] {
                    if !answered {
                        assert_40(&image, good);
                        continue;
                    }
                    let listed = match (primary == 9, redundant == 9) {
                        (false, false) => vec![],
                        (own, _) if own == (good == PRIMARY) => vec![[1, 0, 22]],
                        _ => vec![[1, 22, 0]],
                    };
                    assert_eq!(changes(&image, good), listed, "{primary} {redundant}");
                }
            }
        }
    }
}

#[test]
fn directory_entries_past_n() {
    let mut image = with(&[(4, &[10, 20, 0]), (5, &[30, 40, 39])]);
    put64(&mut image, 12, 8192);
    assert!(changes(&image, PRIMARY).is_empty());
    put64(&mut image, 12, 8193);
    assert_40(&image, PRIMARY);
    assert_40(&image, REDUNDANT);
}

#[test]
fn a_table_at_every_sector() {
    // The other side's second table holds whatever is there, up to where it runs past F.
    let fixed = [(0, 0), (1, 3), (4, 4), (5, 5), (50, 73)];
    for (directory, first, good, others, place) in [
        (5, 30, PRIMARY, [(10, 13), (20, 23), (30, 33)], 5),
        (4, 10, REDUNDANT, [(10, 13), (30, 33), (40, 43)], 4),
    ] {
        for at in 2..=70 {
            let image = with(&[(directory, &[first, at])]);
            if meets(at, &fixed) || meets(at, &others) {
                assert_40(&image, good);
            } else if at == 20 || at == 40 {
                assert!(changes(&image, good).is_empty(), "{at}");
            } else {
                assert_eq!(changes(&image, good), [[515, 0, 50]], "{at}");
            }
        }
        let image = with(&[(directory, &[first, 71])]);
        assert_eq!(refused(&image, good, 9), (8, place));
    }
}

#[test]
fn a_directory_at_every_sector() {
    // The redundant side has no grain from 58 to 65, so that nothing else stands there once it is the good one.
    let free = [6..=9, 14..=19, 24..=29, 34..=39, 44..=49];
    for (field, own, tables) in [(48, 5, [30, 40]), (56, 4, [10, 20])] {
        for at in 1..=73 {
            let mut image = with(&[(30, &[1]), (at, &tables)]);
            put64(&mut image, field, at as u64);
            let apart = at == own || free.iter().any(|sectors| sectors.contains(&at));
            if apart {
                assert_eq!(changes(&image, PRIMARY), [[0, 1, 58]], "{at}");
            } else {
                assert_40(&image, PRIMARY);
            }
            if apart || (58..=65).contains(&at) {
                assert_eq!(changes(&image, REDUNDANT), [[0, 58, 1]], "{at}");
            } else {
                assert_40(&image, REDUNDANT);
            }
        }
    }
}

#[test]
fn a_table_on_both_directories_that_would_leave_an_accepted_image() {
    // The directories at 10 and 11 are the entries 0 and 128 of one of their tables, and would come to name 30 and 40.
    for (tables, good) in [([20, 10], PRIMARY), ([10, 20], REDUNDANT)] {
        let mut image = kdmv(129 * 8, 8, 50);
        put_entries(&mut image, 1, &[0]);
        put64(&mut image, 48, 11);
        put64(&mut image, 56, 10);
        put_entries(&mut image, 10, &tables[..1]);
        put_entries(&mut image, 11, &tables[1..]);
        put_entries(&mut image, 20, &[30]);
        put_entries(&mut image, 21, &[40]);
        let mut changed = image.clone();
        changed.copy_within(20 * 512..24 * 512, 10 * 512);
        assert_eq!(check(&changed).number, 0);
        assert_40(&image, good);
    }
}

#[test]
fn the_first_grain_at_every_sector() {
    // 16 more sectors, which no area has: from 74 to 82 there is room for a grain.
    for (table, good) in [(10, PRIMARY), (30, REDUNDANT)] {
        for at in 2..=90 {
            let mut image = with(&[(table, &[at])]);
            image.resize(90 * 512, 0);
            if at == 58 {
                assert!(changes(&image, good).is_empty());
            } else if (74..=82).contains(&at) {
                assert_eq!(changes(&image, good), [[0, 58, at.into()]], "{at}");
            } else {
                assert_40(&image, good);
            }
        }
    }
}

#[test]
fn grains_of_two_tables() {
    // The last grain on another one of its side, or where only the other side has one.
    for (at, alike) in [(58, false), (66, false), (50, true)] {
        let image = with(&[(20, &[0, 0, 0, at]), (30, &[1])]);
        if alike {
            assert_eq!(changes(&image, PRIMARY), [[0, 1, 58]]);
        } else {
            assert_40(&image, PRIMARY);
        }
    }
    let image = with(&[(30, &[0]), (40, &[0, 0, 0, 58])]);
    assert_eq!(changes(&image, REDUNDANT), [[0, 58, 0], [515, 50, 58]]);
    assert_eq!(changes(&image, PRIMARY), [[0, 0, 58], [515, 58, 50]]);
}

#[test]
fn an_entry_of_1() {
    // Directories at 9 and 14, tables at 10 and 15, of which the first has the second grain at 1, up to 8 where it is a sector.
    let mut image = kdmv(33, 8, 30);
    put_entries(&mut image, 1, &[0]);
    put64(&mut image, 48, 14);
    put64(&mut image, 56, 9);
    put_entries(&mut image, 9, &[10]);
    put_entries(&mut image, 14, &[15]);
    put_entries(&mut image, 10, &[0, 1, 19]);
    put_entries(&mut image, 15, &[0, 0, 19]);
    for head in SECTOR.iter().chain(&ZEROS) {
        assert_eq!(changes(&of(&image, *head), PRIMARY), [[1, 0, 1]]);
        assert_eq!(changes(&of(&image, *head), REDUNDANT), [[1, 1, 0]]);
    }
    // A descriptor in its place.
    put64(&mut image, 28, 8);
    put64(&mut image, 36, 1);
    for head in SECTOR {
        assert_40(&of(&image, head), PRIMARY);
        assert_eq!(changes(&of(&image, head), REDUNDANT), [[1, 1, 0]]);
    }
    for head in ZEROS {
        assert_eq!(changes(&of(&image, head), PRIMARY), [[1, 0, 1]]);
    }
}

#[test]
fn a_descriptor_on_what_is_written() {
    // The descriptor from 24 on, up to the redundant table at 30 and into it; then from 43 on, its last sector, and behind it.
    for (first, sectors, answered) in [(24, 6, true), (24, 7, false), (43, 1, false), (44, 6, true)]
    {
        let mut image = with(&[(40, &[1])]);
        put64(&mut image, 28, first);
        put64(&mut image, 36, sectors);
        if answered {
            assert_eq!(changes(&image, PRIMARY), [[512, 1, 0]], "{first}");
        } else {
            assert_40(&image, PRIMARY);
        }
    }
}

#[test]
fn both_sides_at_fault() {
    // Each side has one entry that no image can have.
    let mut image = with(&[(10, &[99]), (40, &[99])]);
    assert_eq!((check(&image).number, check(&image).place), (9, 0));
    assert_40(&image, PRIMARY);
    assert_40(&image, REDUNDANT);
    put_entries(&mut image, 40, SECOND);
    assert_eq!(mended(&image, REDUNDANT).0, furnished());
    assert_40(&image, PRIMARY);
    put32(&mut image, 10 * 512, 0);
    assert_eq!(changes(&image, PRIMARY), [[0, 58, 0]]);
}
