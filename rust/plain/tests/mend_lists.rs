//! Request A7: the list of changes, which room is refused 21, and where that and the header's numbers come in the order.

mod common;
#[path = "common/faulty.rs"]
mod faulty;
#[path = "common/mends.rs"]
mod mends;
#[path = "common/parts.rs"]
mod parts;

use common::{kdmv, put32, put64};
use faulty::faulty;
use mends::{assert_40, changes, mended, refused, HELD, PRIMARY, REDUNDANT};
use parts::put_entries;
use plain::{check, frame, mend};

/// Five grains of 8 sectors, with tables at 2 and 11, in which this many entries differ.
fn differing(count: usize) -> Vec<u8> {
    let mut image = kdmv(33, 8, 40);
    put64(&mut image, 48, 10);
    put_entries(&mut image, 10, &[11]);
    put_entries(&mut image, 11, &[1; 5][..count]);
    image
}

/// The numbers at fault in headers and frames, each with the image that is refused for it.
fn headers() -> Vec<(u64, Vec<u8>)> {
    let mut images: Vec<(u64, Vec<u8>)> = (1..).zip(faulty().into_iter().take(8)).collect();
    images.push((1, vec![]));
    images.push((1, differing(1)[..511].to_vec()));
    images.push((8, differing(1)[..512].to_vec()));
    // Descriptor, either directory and a table of either, by the place of their number.
    for (at, value) in [
        (28, 1),
        (36, 1),
        (56, 0),
        (56, 40),
        (48, 40),
        (48, u64::MAX),
    ] {
        let mut image = differing(1);
        put64(&mut image, at, value);
        images.push((8, image));
    }
    for directory in [1, 10] {
        let mut image = differing(1);
        put_entries(&mut image, directory, &[37]);
        images.push((8, image));
    }
    images
}

#[test]
fn three_words_a_change() {
    for count in 0..=5 {
        let image = differing(count);
        let listed: Vec<_> = (0..count as u64).map(|grain| [grain, 1, 0]).collect();
        assert_eq!(changes(&image, PRIMARY), listed);
        let listed: Vec<_> = (0..count as u64).map(|grain| [grain, 0, 1]).collect();
        assert_eq!(changes(&image, REDUNDANT), listed);
        for room in 0..3 * count {
            assert_eq!(refused(&image, PRIMARY, room), (21, 0), "{room}");
            assert_eq!(refused(&image, REDUNDANT, room), (21, 0), "{room}");
        }
    }
}

#[test]
fn the_rest_of_the_list() {
    for held in [0, 1, u64::MAX, HELD] {
        for room in [6, 7, 8, 9, 100] {
            let (mut image, mut list) = (differing(2), vec![held; room]);
            assert_eq!(mend(&mut image, PRIMARY, &mut list).count, 2);
            assert_eq!(list[..6], [0, 1, 0, 1, 1, 0]);
            assert!(list[6..].iter().all(|word| *word == held), "{room}");
            // Mended again, it has no word to write.
            assert_eq!(mend(&mut image, PRIMARY, &mut list).count, 0);
            assert_eq!(list[..6], [0, 1, 0, 1, 1, 0]);
            assert_eq!(image[11 * 512..], vec![0; 29 * 512]);
        }
    }
}

#[test]
fn entries_of_all_sizes() {
    // An entry is a u32, whatever the words of the list have room for.
    for old in [2, 255, 256, 65535, 65536, 1 << 24, 1 << 31, u32::MAX] {
        let mut image = differing(0);
        put32(&mut image, 11 * 512 + 4 * 4, old);
        assert_eq!(changes(&image, PRIMARY), [[4, old.into(), 0]]);
        assert_40(&image, REDUNDANT);
    }
}

#[test]
fn headers_and_frames_come_first() {
    for (number, image) in headers() {
        let verdict = check(&image);
        assert_eq!(verdict.number, number);
        for good in [PRIMARY, REDUNDANT] {
            for room in [0, 2, 3, 40] {
                let answer = refused(&image, good, room);
                assert_eq!(answer, (number, verdict.place), "{room}");
            }
        }
    }
    // Directories whose entries are at fault in both ways: a table past F, and in other places.
    let mut image = differing(0);
    put64(&mut image, 12, 2 * 4096);
    put_entries(&mut image, 1, &[2, 37]);
    assert_eq!(refused(&image, PRIMARY, 0), (8, 4));
    put_entries(&mut image, 1, &[2, 36]);
    assert_40(&image, PRIMARY);
    put_entries(&mut image, 10, &[11, 20]);
    assert!(changes(&image, PRIMARY).is_empty());
}

#[test]
fn edges_of_8() {
    // A table that ends with the file is answered, and one that ends a sector later is not judged for anything else.
    for (directory, good, place) in [(10, PRIMARY, 5), (1, REDUNDANT, 4)] {
        let mut image = differing(0);
        put32(&mut image, 11 * 512, 1);
        put32(&mut image, 2 * 512, 1);
        put_entries(&mut image, directory, &[36]);
        assert_eq!(changes(&image, good), [[0, 0, 1]]);
        image.truncate(40 * 512 - 1);
        assert_eq!(refused(&image, good, 3), (8, place));
    }
    // A descriptor up to the end of the file.
    let mut image = differing(1);
    put64(&mut image, 28, 15);
    put64(&mut image, 36, 25);
    assert_eq!(changes(&image, PRIMARY).len(), 1);
    put64(&mut image, 36, 26);
    assert_eq!(refused(&image, PRIMARY, 0), (8, 1));
    put64(&mut image, 36, u64::MAX - 14);
    assert_eq!(refused(&image, PRIMARY, 0), (8, 1));
}

#[test]
fn numbers_9_to_12_are_no_answer() {
    for image in &faulty()[8..] {
        assert_eq!(frame(image, &mut [0; 24]).number, 0);
        assert_40(image, PRIMARY);
        assert_40(image, REDUNDANT);
    }
}

#[test]
fn room_comes_last() {
    // One entry that differs and can be mended, and one that no image can have: 40 whatever the room.
    let mut image = differing(1);
    put32(&mut image, 2 * 512 + 16, 33);
    for room in [0, 3, 5, 6] {
        assert_eq!(refused(&image, PRIMARY, room), (40, 0), "{room}");
    }
    put32(&mut image, 2 * 512 + 16, 32);
    for room in [0, 3, 5] {
        assert_eq!(refused(&image, PRIMARY, room), (21, 0), "{room}");
    }
    let (after, listed) = mended(&image, PRIMARY);
    assert_eq!(listed, [[0, 1, 0], [4, 0, 32]]);
    assert_eq!(after[11 * 512..11 * 512 + 20], image[2 * 512..2 * 512 + 20]);
}
