//! Request A6: grains that meet, and the sizes of the areas before the first that does, added up by hand.

mod common;
#[path = "common/laid.rs"]
mod laid;
#[path = "common/marks.rs"]
mod marks;
#[path = "common/parts.rs"]
mod parts;

use laid::{closed, furnished, put_packed, with, SECOND};
use marks::{accepted, marked, refused};

/// `furnished` with the first grains at other sectors.
fn with_first(grains: &[u32]) -> Vec<u8> {
    with(&[(10, grains), (30, grains)])
}

/// `furnished` with the last grain at another sector.
fn with_last(at: u32) -> Vec<u8> {
    let second = [0, 0, 0, at];
    with(&[(20, &second), (40, &second)])
}

#[test]
fn grains_after_all_tables() {
    // A table on a grain: it is the grain that meets, wherever the two stand.
    for (table, expected) in [(55, 22), (62, 22), (65, 22), (66, 30), (70, 30), (50, 38)] {
        let primary = with(&[(4, &[10, table]), (table as usize, SECOND)]);
        assert_eq!(refused(&primary), expected, "{table}");
        let redundant = with(&[(5, &[30, table]), (table as usize, SECOND)]);
        assert_eq!(refused(&redundant), expected, "{table}");
    }
}

#[test]
fn the_first_grain_at_every_sector() {
    let frame = [(0, 5), (10, 13), (20, 23), (30, 33), (40, 43)];
    for at in 2..=66 {
        let meets = |(first, last)| at <= last && at + 7 >= first;
        let expected = if frame.into_iter().any(meets) {
            (12, 0, 22)
        } else if meets((66, 73)) {
            (12, 0, 30)
        } else if meets((50, 57)) {
            (12, 0, 38)
        } else {
            (0, 0, 46)
        };
        assert_eq!(marked(&with_first(&[at, 0, 66])), expected, "{at}");
    }
    assert_eq!(accepted(&furnished()), 46);
    assert_eq!(marked(&with_first(&[67, 0, 66])), (9, 0, 0));
}

#[test]
fn grains_on_grains() {
    // One place twice, or a part of it; the later grain is the one that meets, wherever it stands.
    for (first, third) in [(58, 58), (58, 59), (58, 65), (66, 66), (59, 66), (65, 58)] {
        let image = with_first(&[first, 0, third]);
        assert_eq!(refused(&image), 30, "{first} {third}");
    }
    for last in [51, 57, 58, 59, 65, 66] {
        assert_eq!(refused(&with_last(last)), 38, "{last}");
    }
    // Three on one place: the second of them is the first that meets.
    assert_eq!(refused(&with_first(&[50, 0, 50])), 30);
    // The fifth grain is on the first one, and the last is apart.
    assert_eq!(refused(&with_first(&[58, 1, 66, 0, 60])), 38);
}

#[test]
fn packed_grains() {
    // The first grain before the third, on it and on the last one too: it counts whole, up to where it meets the footer.
    for (sectors, expected) in [
        (1, (0, 0, 14)),
        (3, (0, 0, 16)),
        (4, (12, 0, 8 + 4)),
        (5, (12, 0, 8 + 5)),
        (62, (12, 0, 8 + 62)),
        (63, (12, 0, 8)),
        (64, (12, 0, 8)),
        (65, (9, 0, 0)),
    ] {
        let mut image = closed();
        put_packed(&mut image, 0, 6, sectors);
        assert_eq!(marked(&image), expected, "{sectors}");
    }
    // The last grain from 8 on, which ends on the third or passes it.
    for (sectors, expected) in [(1, (0, 0, 12)), (2, (12, 0, 11)), (60, (12, 0, 11))] {
        let mut image = closed();
        put_packed(&mut image, 4, 8, sectors);
        assert_eq!(marked(&image), expected, "{sectors}");
    }
}

#[test]
fn grains_after_footer_and_last_sector() {
    // The last grain up to the footer, on it, on the last sector too.
    for (sectors, expected) in [
        (6, (0, 0, 17)),
        (7, (12, 0, 11)),
        (8, (12, 0, 11)),
        (9, (9, 4, 0)),
    ] {
        let mut image = closed();
        put_packed(&mut image, 4, 62, sectors);
        assert_eq!(marked(&image), expected, "{sectors}");
    }
}
