//! Mending, asked with several lists, and its answers looked at by the check, the frame and the tables themselves.

use super::common::put32;
use plain::{check, frame, mend, Mended};

/// `good` for either side.
pub const PRIMARY: u64 = 0;
pub const REDUNDANT: u64 = 1;

/// What lists hold before a call; no change has such a word.
pub const HELD: u64 = 0x0123_4567_89ab_cdef;

/// Grain, old entry and new entry.
pub type Change = [u64; 3];

/// The image after an answer, and its changes, which hold together as request A7 says.
pub fn mended(image: &[u8], good: u64) -> (Vec<u8>, Vec<Change>) {
    let (after, changes) = answered(image, good, 3 * 600);
    let needed = 3 * changes.len();
    for room in [needed, needed + 1, needed + 2, needed + 3] {
        assert_eq!(
            answered(image, good, room),
            (after.clone(), changes.clone())
        );
    }
    if needed > 0 {
        assert_eq!(refused(image, good, needed - 1), (21, 0));
        assert_eq!(refused(image, good, 0), (21, 0));
    }
    assert!(changes.windows(2).all(|pair| pair[0][0] < pair[1][0]));
    let (from, to) = if good == PRIMARY { (3, 4) } else { (4, 3) };
    let mut expected = image.to_vec();
    for [grain, old, new] in &changes {
        let at = entry_at(image, to, *grain as usize);
        assert_eq!(number(image, at), *old);
        assert_eq!(number(image, entry_at(image, from, *grain as usize)), *new);
        assert_ne!(old, new);
        put32(&mut expected, at, *new as u32);
    }
    assert!(
        after == expected,
        "a byte outside the entries that differed"
    );
    assert_eq!(check(&after).number, 0);
    // Once both sides are alike nothing is left to do, from either.
    for good in [PRIMARY, REDUNDANT] {
        assert!(answered(&after, good, 0) == (after.clone(), vec![]));
    }
    (after, changes)
}

/// The changes alone.
pub fn changes(image: &[u8], good: u64) -> Vec<Change> {
    mended(image, good).1
}

/// Number and place of a refusal with a list of this room, which writes no byte and no word.
pub fn refused(image: &[u8], good: u64, room: usize) -> (u64, u64) {
    let mut after = image.to_vec();
    let mut list = vec![HELD; room];
    let answer = mend(&mut after, good, &mut list);
    let expected = Mended {
        number: answer.number,
        place: answer.place,
        count: 0,
    };
    assert_eq!(answer, expected);
    assert_ne!(answer.number, 0);
    assert!(after == image, "a byte was written");
    assert!(list.iter().all(|word| *word == HELD), "{list:?}");
    (answer.number, answer.place)
}

/// That mending from this side is refused 40, whatever the list's room.
pub fn assert_40(image: &[u8], good: u64) {
    for room in [0, 2, 3, 3 * 600] {
        assert_eq!(refused(image, good, room), (40, 0), "{room}");
    }
}

/// The image and the changes after an answer with a list of this room, the rest of which keeps what it held.
fn answered(image: &[u8], good: u64, room: usize) -> (Vec<u8>, Vec<Change>) {
    let mut after = image.to_vec();
    let mut list = vec![HELD; room];
    let answer = mend(&mut after, good, &mut list);
    assert_eq!((answer.number, answer.place), (0, 0));
    let (changes, rest) = list.split_at(3 * answer.count as usize);
    assert!(rest.iter().all(|word| *word == HELD), "{rest:?}");
    let changes = changes
        .chunks(3)
        .map(|words| [words[0], words[1], words[2]]);
    (after, changes.collect())
}

/// Where a grain's entry stands by the directory of this group of the frame: 3, or 4 for the redundant one.
fn entry_at(image: &[u8], group: u64, grain: usize) -> usize {
    let mut list = [0; 3 * 16];
    assert_eq!(frame(image, &mut list).number, 0);
    let directory = list.chunks(3).find(|area| area[0] == group).unwrap()[1] as usize;
    let table = number(image, directory * 512 + grain / 512 * 4) as usize;
    table * 512 + grain % 512 * 4
}

fn number(image: &[u8], at: usize) -> u64 {
    u32::from_le_bytes(image[at..at + 4].try_into().unwrap()).into()
}
