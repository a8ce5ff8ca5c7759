//! The check in a lent list, asked with several lists, and its number counted anew.

use plain::{check, check_in, frame, header, lookup, Marked, PACKED, STORED};
use std::collections::HashSet;

/// What lists hold before a call: zeros, ones, and neither.
pub const HELD: [u64; 3] = [0, u64::MAX, 0x0123_4567_89ab_cdef];

/// Number, place and sectors marked, for lists that are long enough and whatever they hold; the rest is the check's answer.
pub fn marked(image: &[u8]) -> (u64, u64, u64) {
    let verdict = check(image);
    let expected = Marked {
        number: verdict.number,
        place: verdict.place,
        capacity: verdict.capacity,
        grain_size: verdict.grain_size,
        marked: match verdict.number {
            0 | 12 => counted(image),
            _ => 0,
        },
    };
    let needed = (image.len() / 512 + 63) / 64;
    for held in HELD {
        let word = match verdict.number {
            0 | 12 => 0,
            _ => held,
        };
        for spare in [0, 1, 5] {
            let mut list = vec![held; needed + spare];
            assert_eq!(check_in(image, &mut list), expected, "{held} {spare}");
            assert!(list[..needed].iter().all(|found| *found == word), "{held}");
            assert!(list[needed..].iter().all(|found| *found == held), "{held}");
        }
    }
    assert!(expected.marked <= image.len() as u64 / 512);
    (expected.number, expected.place, expected.marked)
}

/// The sectors marked of an accepted image.
pub fn accepted(image: &[u8]) -> u64 {
    let (number, place, sectors) = marked(image);
    assert_eq!((number, place), (0, 0));
    sectors
}

/// The sectors marked of an image that is refused 12.
pub fn refused(image: &[u8]) -> u64 {
    let (number, place, sectors) = marked(image);
    assert_eq!((number, place), (12, 0));
    sectors
}

/// The sectors of the areas before the first that meets an earlier one, by the frame, the lookup and a set of sectors.
fn counted(image: &[u8]) -> u64 {
    let mut list = vec![0; 3 * 64];
    let framed = frame(image, &mut list);
    assert_eq!(framed.number, 0);
    let frame = list.chunks(3).take(framed.count as usize);
    let mut areas: Vec<(u64, u64)> = frame.map(|area| (area[1], area[2])).collect();
    let head = header(image);
    for sector in (0..head.capacity).step_by(head.grain_size as usize) {
        let found = lookup(image, sector);
        match found.kind {
            STORED => areas.push((found.sector, head.grain_size)),
            PACKED => areas.push((found.sector, (12 + found.size + 511) / 512)),
            _ => {}
        }
    }
    let mut taken = HashSet::new();
    for (first, sectors) in areas {
        if (first..first + sectors).any(|sector| taken.contains(&sector)) {
            break;
        }
        taken.extend(first..first + sectors);
    }
    taken.len() as u64
}
