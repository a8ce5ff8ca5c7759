//! The survey's lists: which lengths are refused 24, which room 21, and what is written.

mod common;

use common::{kdmv, set};
use plain::{survey, Surveyed};

/// What both lists hold before a call; no row and no tally has such a word.
const HELD: u64 = 0x0123_4567_89ab_cdef;

/// The number of a refusal of the lists, whose place and totals are 0 and which writes no word.
fn refused(images: &[u8], lengths: &[u64], rows: usize, tally: usize) -> u64 {
    let mut rows = vec![HELD; rows];
    let mut tally = vec![HELD; tally];
    let answer = survey(images, lengths, &mut rows, &mut tally);
    let expected = Surveyed {
        number: answer.number,
        ..Surveyed::default()
    };
    assert_eq!(answer, expected);
    assert!(rows.iter().chain(&tally).all(|word| *word == HELD));
    answer.number
}

/// Two grains: zero and absent.
fn small() -> Vec<u8> {
    let mut image = kdmv(16, 8, 6);
    set(&mut image, 0, 1);
    image
}

/// Three images and their lengths: an accepted one, one of another magic, and another accepted one.
fn three() -> (Vec<u8>, [u64; 3]) {
    let images = [small(), b"KDMW".to_vec(), kdmv(17, 8, 7)];
    (images.concat(), [6 * 512, 4, 7 * 512])
}

/// The rows of `three`.
const ROWS: [u64; 18] = [0, 1, 1, 0, 0, 0, 0, 0, 0, 0, 2, 0, 0, 0, 3, 0, 0, 0];

#[test]
fn no_length() {
    assert_eq!(refused(b"", &[], 6, 63), 24);
    assert_eq!(refused(b"", &[], 0, 0), 24);
    assert_eq!(refused(&small(), &[], 6, 63), 24);
}

#[test]
fn as_many_images_as_there_can_be() {
    let images = small().repeat(1024);
    let (mut rows, mut tally) = (vec![HELD; 6144], [HELD; 63]);
    let answer = survey(&images, &[6 * 512; 1024], &mut rows, &mut tally);
    let expected = Surveyed {
        zero: 1024,
        absent: 1024,
        ..Surveyed::default()
    };
    assert_eq!(answer, expected);
    assert!(rows.chunks(6).all(|row| row == [0, 1, 1, 0, 0, 0]));
    assert_eq!(tally, [0; 63]);
    assert_eq!(refused(&images, &[6 * 512; 1024], 6143, 63), 21);

    let images = small().repeat(1025);
    assert_eq!(refused(&images, &[6 * 512; 1025], 6150, 63), 24);
    assert_eq!(refused(b"", &[0; 1025], 6150, 63), 24);
}

#[test]
fn sums_of_lengths() {
    let (images, [first, second, third]) = three();
    for lengths in [
        [first, second, third - 1],
        [first, second, third + 1],
        [first, second, 0],
        [0, 0, 0],
        [first, second, u64::MAX],
        // These wrap to the slice's length.
        [u64::MAX, first + second + 1, third],
        [
            first,
            u64::MAX - first - second + 1,
            first + 2 * second + third,
        ],
        [1 << 63, first + second + third, 1 << 63],
    ] {
        assert_eq!(refused(&images, &lengths, 18, 63), 24, "{lengths:?}");
    }
    assert_eq!(refused(&images, &[u64::MAX; 1024], 6144, 63), 24);
    assert_eq!(refused(b"", &[1], 6, 63), 24);
    assert_eq!(refused(b"", &[1 << 63, 1 << 63], 12, 63), 24);
    assert_eq!(refused(&images, &[first + second, third], 11, 63), 21);
}

#[test]
fn images_of_no_bytes() {
    let image = small();
    let (mut rows, mut tally) = ([HELD; 24], [HELD; 63]);
    let lengths = [0, image.len() as u64, 0, 0];
    let answer = survey(&image, &lengths, &mut rows, &mut tally);
    assert_eq!((answer.number, answer.zero, answer.absent), (0, 1, 1));
    let none = [0, 0, 0, 0, 1, 0];
    let counted = [0, 1, 1, 0, 0, 0];
    assert_eq!(rows.to_vec(), [none, counted, none, none].concat());
    assert_eq!((tally[0], tally.iter().sum()), (3, 3_u64));

    let (mut rows, mut tally) = (vec![HELD; 6144], [HELD; 63]);
    let answer = survey(b"", &[0; 1024], &mut rows, &mut tally);
    assert_eq!(answer, Surveyed::default());
    assert!(rows.chunks(6).all(|row| row == none));
    assert_eq!((tally[0], tally.iter().sum()), (1024, 1024_u64));
}

#[test]
fn room_for_both_lists() {
    let (images, lengths) = three();
    let mut tallied = [0; 63];
    tallied[1] = 1;
    for (room, words) in [(18, 63), (19, 63), (18, 64), (40, 200)] {
        let (mut rows, mut tally) = (vec![HELD; room], vec![HELD; words]);
        let answer = survey(&images, &lengths, &mut rows, &mut tally);
        let expected = Surveyed {
            zero: 1,
            absent: 4,
            ..Surveyed::default()
        };
        assert_eq!(answer, expected, "{room} {words}");
        assert_eq!((&rows[..18], &tally[..63]), (&ROWS[..], &tallied[..]));
        let rest = rows[18..].iter().chain(&tally[63..]);
        assert_eq!(
            rest.filter(|word| **word == HELD).count(),
            room + words - 81
        );
    }
    for (room, words) in [
        (17, 63),
        (18, 62),
        (17, 62),
        (0, 63),
        (18, 0),
        (0, 0),
        (12, 63),
    ] {
        assert_eq!(
            refused(&images, &lengths, room, words),
            21,
            "{room} {words}"
        );
    }
    for (room, words) in [(17, 63), (18, 62), (0, 0)] {
        assert_eq!(refused(&images[1..], &lengths, room, words), 24);
    }
}

#[test]
fn the_tally_is_set() {
    let (images, lengths) = three();
    for held in [0, 1, u64::MAX] {
        let (mut rows, mut tally) = ([held; 18], [held; 63]);
        for _ in 0..2 {
            assert_eq!(survey(&images, &lengths, &mut rows, &mut tally).number, 0);
            assert_eq!(rows, ROWS);
            assert_eq!((tally[1], tally.iter().sum()), (1, 1_u64));
        }
    }
}
