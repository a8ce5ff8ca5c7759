//! Request A7: images with packed grains, where a marker can stand in what is written, and with a footer.

mod common;
#[path = "common/laid.rs"]
mod laid;
#[path = "common/mends.rs"]
mod mends;
#[path = "common/parts.rs"]
mod parts;

use common::{put32, put64, set};
use laid::{closed, put_packed, with};
use mends::{assert_40, changes, mended, refused, PRIMARY, REDUNDANT};
use parts::{put_entries, put_footer};
use plain::check;

/// `closed` with its last grain from 20 to 23, a redundant directory at 10 and its table from 11 to 14.
fn doubled() -> Vec<u8> {
    let mut image = closed();
    put_packed(&mut image, 4, 20, 4);
    put64(&mut image, 48, 10);
    put_footer(&mut image, 1);
    put_entries(&mut image, 10, &[11]);
    put_entries(&mut image, 11, &[6, 0, 9, 0, 20]);
    image
}

/// `doubled` with this entry of the table at this sector.
fn doubled_but(table: usize, grain: usize, entry: u32) -> Vec<u8> {
    let mut image = doubled();
    put32(&mut image, table * 512 + grain * 4, entry);
    image
}

fn verdict(image: &[u8]) -> (u64, u64) {
    let verdict = check(image);
    (verdict.number, verdict.place)
}

#[test]
fn either_side() {
    for good in [PRIMARY, REDUNDANT] {
        assert_eq!(mended(&doubled(), good), (doubled(), vec![]));
        // A stream with one directory.
        assert_40(&closed(), good);
    }
    let image = doubled_but(11, 2, 0);
    assert_eq!(mended(&image, PRIMARY), (doubled(), vec![[2, 0, 9]]));
    let (after, listed) = mended(&image, REDUNDANT);
    assert_eq!(listed, [[2, 9, 0]]);
    let mut expected = image;
    set(&mut expected, 2, 0);
    assert_eq!(after, expected);
}

#[test]
fn a_marker_of_another_grain() {
    // The check looks at markers as the primary table names them, and then finds that the copies differ.
    for (bad, good, other, before) in [
        (2, REDUNDANT, PRIMARY, (10, 0)),
        (11, PRIMARY, REDUNDANT, (11, 0)),
    ] {
        let image = doubled_but(bad, 0, 9);
        assert_eq!(verdict(&image), before);
        assert_eq!(mended(&image, good), (doubled(), vec![[0, 9, 6]]));
        assert_40(&image, other);
        // A marker in the last sector, whose size is 0, and one past F.
        for entry in [69, 70] {
            let image = doubled_but(bad, 0, entry);
            assert_eq!(
                mended(&image, good),
                (doubled(), vec![[0, entry.into(), 6]])
            );
            assert_40(&image, other);
        }
    }
}

#[test]
fn sizes_of_grains() {
    // The last grain up to the footer and into it; on the good side alone it is judged all the same.
    for (bad, good) in [(2, REDUNDANT), (11, PRIMARY)] {
        for (sectors, answered) in [(48, true), (49, false), (50, false), (51, false)] {
            let mut image = doubled_but(bad, 4, 1);
            put32(&mut image, 20 * 512 + 8, 512 * sectors - 12);
            if answered {
                assert_eq!(changes(&image, good), [[4, 1, 20]]);
            } else {
                assert_40(&image, good);
            }
        }
        let mut image = doubled_but(bad, 4, 1);
        put32(&mut image, 20 * 512 + 8, 0);
        assert_40(&image, good);
    }
}

#[test]
fn a_marker_in_a_table_of_the_other_side() {
    // In the redundant table's second sector, where nothing is written, and behind its end.
    for (at, answered) in [(12, false), (14, false), (15, true)] {
        let mut image = doubled();
        put_packed(&mut image, 3, at, 1);
        if answered {
            assert_eq!(changes(&image, PRIMARY), [[3, 0, at as u64]]);
        } else {
            assert_40(&image, PRIMARY);
        }
    }
    // In its first: as it stands it is grain 3's, and what would be written is not.
    let mut image = doubled();
    put_packed(&mut image, 3, 11, 1);
    assert_eq!(verdict(&image), (11, 0));
    assert_40(&image, PRIMARY);
    // As it stands it is none, and what would be written is grain 3's: first sector 24 and a size of 30.
    let mut image = doubled();
    put_entries(&mut image, 2, &[24, 0, 30, 11, 20]);
    put_entries(&mut image, 11, &[24, 1, 30, 11, 20]);
    put32(&mut image, 24 * 512 + 8, 1);
    put64(&mut image, 30 * 512, 16);
    put32(&mut image, 30 * 512 + 8, 1);
    assert_eq!(verdict(&image), (10, 3));
    assert_40(&image, PRIMARY);
    // The same without that grain.
    put_entries(&mut image, 2, &[24, 0, 30, 0, 20]);
    let listed = [[1, 1, 0], [3, 11, 0]];
    assert_eq!(changes(&image, PRIMARY), listed);
}

#[test]
fn a_marker_in_a_table_of_the_primary_side() {
    // The redundant side is good and names a grain in the first sector of what is written.
    let mut image = doubled();
    put_entries(&mut image, 11, &[24, 0, 30, 2, 20]);
    put_entries(&mut image, 2, &[24, 0, 30, 0, 20]);
    put32(&mut image, 24 * 512 + 8, 1);
    put64(&mut image, 30 * 512, 16);
    put32(&mut image, 30 * 512 + 8, 1);
    assert_40(&image, REDUNDANT);
    assert_eq!(changes(&image, PRIMARY), [[3, 2, 0]]);
}

#[test]
fn a_grain_that_runs_into_a_table() {
    // The other side's table is moved to 40 and is empty there; grain 3 from 30 on ends before it, in it, with it, behind it.
    for (directory, good) in [(10, PRIMARY), (1, REDUNDANT)] {
        for sectors in [10, 11, 14, 15] {
            let mut image = doubled();
            put_entries(&mut image, directory, &[40]);
            put_packed(&mut image, 3, 30, sectors);
            put_entries(&mut image, 11, &[6, 0, 9, 30, 20]);
            if sectors == 10 {
                let listed = [[0, 0, 6], [2, 0, 9], [3, 0, 30], [4, 0, 20]];
                assert_eq!(changes(&image, good), listed);
            } else {
                assert_40(&image, good);
            }
        }
    }
}

#[test]
fn a_table_on_the_footer() {
    // From 64 it ends before the footer, from 65 on it, from 66 on the last sector; from 67 it runs past F.
    for (directory, from, good, place) in [(10, 2, PRIMARY, 5), (1, 11, REDUNDANT, 4)] {
        for at in [63, 64, 65, 66] {
            let mut image = doubled();
            put_entries(&mut image, directory, &[at]);
            if at < 65 {
                let listed = [[0, 0, 6], [2, 0, 9], [4, 0, 20]];
                assert_eq!(changes(&image, good), listed, "{at}");
            } else {
                assert_40(&image, good);
                // Nor with the same entries in place, so that nothing would be written.
                image.copy_within(from * 512..from * 512 + 20, at as usize * 512);
                assert_40(&image, PRIMARY);
                assert_40(&image, REDUNDANT);
            }
        }
        let mut image = doubled();
        put_entries(&mut image, directory, &[67]);
        assert_eq!(refused(&image, good, 9), (8, place));
    }
}

#[test]
fn a_directory_on_the_last_sector() {
    // Its zeros name no table; in the sector before the footer it meets nothing.
    for (at, answered) in [(67, true), (69, false)] {
        for redundant in [true, false] {
            let mut image = doubled();
            put_entries(&mut image, 1, &[0]);
            put_entries(&mut image, 10, &[0]);
            let (own, copy) = if redundant { (1, at) } else { (at, 10) };
            put64(&mut image, 48, copy);
            put_footer(&mut image, own);
            for good in [PRIMARY, REDUNDANT] {
                if answered {
                    assert!(changes(&image, good).is_empty());
                } else {
                    assert_40(&image, good);
                }
            }
        }
    }
}

#[test]
fn the_footer_names_the_directory() {
    // Sector 0's own directory sector is all ones, so that what stands at 1 is of no use once the footer names 30.
    let mut image = doubled_but(11, 0, 0);
    put_footer(&mut image, 30);
    put_entries(&mut image, 30, &[31]);
    put_entries(&mut image, 31, &[0, 1, 9, 0, 20]);
    assert_eq!(changes(&image, PRIMARY), [[1, 0, 1]]);
    assert_eq!(changes(&image, REDUNDANT), [[1, 1, 0]]);
    // A footer that is unlike sector 0 in the redundant directory's sector comes first.
    put64(&mut image, 48, 11);
    assert_eq!(refused(&image, PRIMARY, 0), (7, 0));
}

#[test]
fn stored_grains_have_no_marker() {
    // What stands in a stored grain is never a marker, so that any bytes of it are left alone.
    let mut image = with(&[(30, &[1])]);
    image[50 * 512..].fill(0xff);
    let (after, listed) = mended(&image, PRIMARY);
    assert_eq!(listed, [[0, 1, 58]]);
    assert!(after[50 * 512..].iter().all(|byte| *byte == 0xff));
}
