//! Request A7: what mending changes and lists, by hand.

mod common;
#[path = "common/laid.rs"]
mod laid;
#[path = "common/mends.rs"]
mod mends;
#[path = "common/parts.rs"]
mod parts;

use common::{kdmv, put32, put64};
use laid::{closed, furnished, with, FIRST, SECOND};
use mends::{assert_40, changes, mended, refused, HELD, PRIMARY, REDUNDANT};
use parts::put_entries;
use plain::{check, lookup, mend, Mended, STORED, ZERO};

fn verdict(image: &[u8]) -> (u64, u64) {
    let verdict = check(image);
    (verdict.number, verdict.place)
}

/// `furnished` with its tables elsewhere and other redundant ones: four entries differ.
fn torn(primary: [u32; 2], redundant: [u32; 2]) -> Vec<u8> {
    with(&[
        (4, &primary),
        (5, &redundant),
        (primary[0] as usize, &[58, 0, 66, 0]),
        (primary[1] as usize, SECOND),
        (redundant[0] as usize, &[0, 1, 66, 0]),
        (redundant[1] as usize, &[1, 0, 1, 50]),
    ])
}

#[test]
fn the_whole_answer() {
    let image = with(&[(30, &[1])]);
    assert_eq!(verdict(&image), (11, 0));
    let (mut after, mut list) = (image.clone(), [HELD; 4]);
    let expected = Mended {
        number: 0,
        place: 0,
        count: 1,
    };
    assert_eq!(mend(&mut after, PRIMARY, &mut list), expected);
    assert_eq!((after, list), (furnished(), [0, 1, 58, HELD]));
    let (mut after, mut list) = (image.clone(), [HELD; 4]);
    assert_eq!(mend(&mut after, REDUNDANT, &mut list), expected);
    assert_eq!(
        (after, list),
        (with(&[(10, &[1]), (30, &[1])]), [0, 58, 1, HELD])
    );
    let (mut after, mut list) = (image.clone(), [HELD; 2]);
    let expected = Mended {
        number: 21,
        ..Mended::default()
    };
    assert_eq!(mend(&mut after, PRIMARY, &mut list), expected);
    assert_eq!((after, list), (image, [HELD; 2]));
}

/// 000's sample in version 1, of so many sectors: a descriptor from 1 to 20, the copy at 21 with its table at 22, the directory
/// at 26 with its table at 27, and two grains of 128 sectors.
fn sample(sectors: usize) -> Vec<u8> {
    let mut image = kdmv(8192, 128, sectors);
    (image[4], image[8]) = (1, 3);
    for (at, value) in [(28, 1), (36, 20), (48, 21), (56, 26)] {
        put64(&mut image, at, value);
    }
    for (directory, table) in [(21, 22), (26, 27)] {
        put_entries(&mut image, directory, &[table]);
        put_entries(&mut image, table as usize, &[128, 0, 256]);
    }
    image
}

#[test]
fn entries_that_differ_behind_a_zero_byte() {
    let sound = sample(384);
    assert_eq!(sound[27 * 512..27 * 512 + 4], [0x80, 0, 0, 0]);
    for other in [[0x80, 0, 1, 0], [0x80, 0, 0, 1], [0x80, 0, 0, 0x80]] {
        let entry = u32::from_le_bytes(other);
        let mut image = sound.clone();
        put_entries(&mut image, 22, &[entry]);
        assert_eq!(verdict(&image), (11, 0));
        let listed = vec![[0, entry.into(), 128]];
        assert_eq!(mended(&image, PRIMARY), (sound.clone(), listed.clone()));
        assert_40(&image, REDUNDANT);
        // In the primary table, where no file of this length has such a grain.
        let mut image = sound.clone();
        put_entries(&mut image, 27, &[entry]);
        assert_eq!(verdict(&image), (9, 0));
        assert_eq!(mended(&image, REDUNDANT), (sound.clone(), listed));
        assert_40(&image, PRIMARY);
    }
    // A file with both grains, so that either side can be the good one.
    let mut image = sample(0x10080 + 128);
    put_entries(&mut image, 22, &[0x10080]);
    assert_eq!(verdict(&image), (11, 0));
    for (good, listed, sector) in [
        (PRIMARY, [0, 0x10080, 128], 128),
        (REDUNDANT, [0, 128, 0x10080], 0x10080),
    ] {
        let (after, changes) = mended(&image, good);
        assert_eq!(changes, [listed]);
        assert_eq!(lookup(&after, 0).sector, sector);
    }
}

#[test]
fn either_side_and_two_images() {
    let image = torn([10, 20], [30, 40]);
    let (primary, listed) = mended(&image, PRIMARY);
    assert_eq!(listed, [[0, 0, 58], [1, 1, 0], [512, 1, 0], [514, 1, 0]]);
    assert_eq!(primary, furnished());
    let (redundant, listed) = mended(&image, REDUNDANT);
    assert_eq!(listed, [[0, 58, 0], [1, 0, 1], [512, 0, 1], [514, 0, 1]]);
    let second: &[u32] = &[1, 0, 1, 50];
    let expected = with(&[(10, &[0, 1]), (30, &[0, 1]), (20, second), (40, second)]);
    assert_eq!(redundant, expected);
    assert_eq!(
        (lookup(&primary, 3).kind, lookup(&primary, 3).sector),
        (STORED, 61)
    );
    assert_eq!(
        (lookup(&redundant, 3).kind, lookup(&redundant, 8).kind),
        (0, ZERO)
    );
    // Any number but 0 names the redundant side.
    for good in [2, 255, 256, 1 << 32, u64::MAX] {
        assert_eq!(mended(&image, good).0, redundant, "{good}");
    }
}

#[test]
fn grains_ascend_wherever_tables_stand() {
    for (primary, redundant) in [
        ([20, 10], [30, 40]),
        ([10, 20], [40, 30]),
        ([20, 10], [40, 30]),
        ([40, 30], [20, 10]),
        ([30, 10], [40, 20]),
    ] {
        let image = torn(primary, redundant);
        let listed = [[0, 0, 58], [1, 1, 0], [512, 1, 0], [514, 1, 0]];
        assert_eq!(
            changes(&image, PRIMARY),
            listed,
            "{primary:?} {redundant:?}"
        );
        let listed = [[0, 58, 0], [1, 0, 1], [512, 0, 1], [514, 0, 1]];
        assert_eq!(
            changes(&image, REDUNDANT),
            listed,
            "{primary:?} {redundant:?}"
        );
    }
}

#[test]
fn nothing_to_mend() {
    for good in [PRIMARY, REDUNDANT] {
        assert_eq!(mended(&furnished(), good), (furnished(), vec![]));
        // With both alike, what the check refuses is not answered: a grain past F, two grains on one place.
        for (first, number) in [([67, 0, 58], 9), ([58, 0, 58], 12)] {
            let image = with(&[(10, &first), (30, &first)]);
            assert_eq!(verdict(&image), (number, 0));
            assert_40(&image, good);
        }
    }
}

#[test]
fn entries_past_the_last_grain() {
    let mut image = with(&[(20, &[0, 0, 0, 50, 1, 99]), (40, &[0, 0, 0, 1, 0, 98])]);
    // The last entries of either table, and directory entries past n.
    put32(&mut image, 24 * 512 - 4, 97);
    put32(&mut image, 44 * 512 - 4, 96);
    put32(&mut image, 4 * 512 + 8, 95);
    put32(&mut image, 5 * 512 + 8, 1);
    // One grain's last sector, the next one's first, and one more grain.
    for (last, listed) in [
        (24, vec![]),
        (25, vec![[515, 1, 50]]),
        (32, vec![[515, 1, 50]]),
    ] {
        put64(&mut image, 12, 4096 + last);
        let (after, changes) = mended(&image, PRIMARY);
        assert_eq!(changes, listed, "{last}");
        assert_eq!(
            after[40 * 512 + 16..44 * 512],
            image[40 * 512 + 16..44 * 512]
        );
    }
    put64(&mut image, 12, 4096 + 33);
    assert_eq!(changes(&image, PRIMARY), [[515, 1, 50], [516, 0, 1]]);
    assert_eq!(changes(&image, REDUNDANT), [[515, 50, 1], [516, 1, 0]]);
}

#[test]
fn absent_and_zero_directory_entries() {
    let mut image = with(&[(4, &[1, 10, 0, 1, 20, 0]), (5, &[1, 30, 0, 1, 40, 0])]);
    put64(&mut image, 12, 6 * 4096);
    put_entries(&mut image, 30, &[58, 1, 66]);
    put_entries(&mut image, 40, &[0, 0, 0, 50, 1]);
    let (after, changes) = mended(&image, PRIMARY);
    assert_eq!(changes, [[513, 1, 0], [2052, 1, 0]]);
    let kinds: Vec<u64> = (0..6)
        .map(|table| lookup(&after, table * 4096 + 8).kind)
        .collect();
    assert_eq!(kinds, [1, 0, 0, 1, 0, 0]);
    assert_eq!(mended(&image, REDUNDANT).1, [[513, 0, 1], [2052, 0, 1]]);
    // Directories without a table.
    put_entries(&mut image, 4, &[1, 0, 0, 1, 1, 0]);
    put_entries(&mut image, 5, &[1, 0, 0, 1, 1, 0]);
    for good in [PRIMARY, REDUNDANT] {
        assert_eq!(mended(&image, good), (image.clone(), vec![]));
    }
}

#[test]
fn every_entry_of_a_table() {
    let mut image = kdmv(4096, 8, 11);
    put64(&mut image, 48, 6);
    put_entries(&mut image, 6, &[7]);
    put_entries(&mut image, 7, &[1; 512]);
    let listed: Vec<_> = (0..512).map(|grain| [grain, 0, 1]).collect();
    assert_eq!(changes(&image, REDUNDANT), listed);
    let listed: Vec<_> = (0..512).map(|grain| [grain, 1, 0]).collect();
    assert_eq!(changes(&image, PRIMARY), listed);
    // The last sector of capacity is the last grain's only one.
    put64(&mut image, 12, 4089);
    assert_eq!(changes(&image, PRIMARY), listed);
    put64(&mut image, 12, 4088);
    assert_eq!(changes(&image, PRIMARY), listed[..511]);
}

#[test]
fn directories_of_two_sectors() {
    let mut image = kdmv(128 * 4096 + 1, 8, 40);
    put64(&mut image, 48, 4);
    put_entries(&mut image, 1, &[0]);
    for (directory, table) in [(2, 20), (5, 10)] {
        put_entries(&mut image, directory, &[table]);
        put_entries(&mut image, table as usize, &[30]);
    }
    put_entries(&mut image, 10, &[0, 7]);
    assert_eq!(changes(&image, PRIMARY), [[65536, 0, 30]]);
    assert_eq!(changes(&image, REDUNDANT), [[65536, 30, 0]]);
}

#[test]
fn what_the_check_does_not_judge() {
    let mut image = with(&[(10, &[1]), (20, &[1]), (1, &[7; 384])]);
    assert_eq!(image[4 * 512], 10);
    // A disk that was still open, flag 0x2, padding, and bytes past the last whole sector.
    (image[72], image[8], image[511]) = (1, 7, 9);
    image.extend([5; 511]);
    let (after, changes) = mended(&image, REDUNDANT);
    assert_eq!(changes, [[0, 1, 58], [512, 1, 0]]);
    put_entries(&mut image, 10, FIRST);
    put_entries(&mut image, 20, SECOND);
    assert_eq!(after, image);
}

#[test]
fn images_with_one_directory() {
    for image in [kdmv(33, 8, 30), closed()] {
        assert_eq!(verdict(&image), (0, 0));
        assert_40(&image, PRIMARY);
        assert_40(&image, REDUNDANT);
    }
    let mut image = furnished();
    put64(&mut image, 48, 0);
    assert_eq!(verdict(&image), (0, 0));
    assert_eq!(refused(&image, PRIMARY, 0), (40, 0));
}
