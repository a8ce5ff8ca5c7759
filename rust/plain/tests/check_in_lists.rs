//! Request A6: the lent list. Which room is refused 21, where that comes in the order, and what is written.

mod common;
#[path = "common/faulty.rs"]
mod faulty;
#[path = "common/marks.rs"]
mod marks;
#[path = "common/parts.rs"]
mod parts;

use common::{kdmv, put64, set};
use faulty::{faulty, mixed, stream};
use marks::{accepted, refused, HELD};
use parts::put_entries;
use plain::{check, check_in, Marked};

/// Number and place of a refusal with a list of this room: nothing is marked and no word written, whatever the list holds.
fn kept(image: &[u8], room: usize) -> (u64, u64) {
    let mut answers = Vec::new();
    for held in HELD {
        let mut list = vec![held; room];
        let answer = check_in(image, &mut list);
        let expected = Marked {
            number: answer.number,
            place: answer.place,
            ..Marked::default()
        };
        assert_eq!(answer, expected);
        assert!(list.iter().all(|word| *word == held), "{room}");
        answers.push((answer.number, answer.place));
    }
    assert!(answers.iter().all(|answer| *answer == answers[0]));
    answers[0]
}

/// Two grains of 8 sectors at 6 and 13, which meet.
fn meeting(sectors: usize) -> Vec<u8> {
    let mut image = kdmv(16, 8, sectors);
    put_entries(&mut image, 2, &[6, 13]);
    image
}

#[test]
fn a_word_for_64_sectors() {
    for (sectors, needed) in [
        (21, 1),
        (63, 1),
        (64, 1),
        (65, 2),
        (127, 2),
        (128, 2),
        (129, 3),
        (640, 10),
        (641, 11),
    ] {
        let sound = kdmv(16, 8, sectors);
        // Bytes past the last whole sector need no room.
        for image in [sound.clone(), [sound, vec![1; 511]].concat()] {
            for room in 0..needed {
                assert_eq!(kept(&image, room), (21, 0), "{sectors} {room}");
            }
            let mut list = vec![9; needed];
            let answer = check_in(&image, &mut list);
            assert_eq!((answer.number, answer.marked), (0, 6), "{sectors}");
            assert_eq!(list, vec![0; needed]);
        }
    }
    let mut smallest = kdmv(16, 8, 2);
    put_entries(&mut smallest, 1, &[0]);
    assert_eq!(kept(&smallest, 0), (21, 0));
    assert_eq!(accepted(&smallest), 2);
}

#[test]
fn before_12() {
    for (sectors, needed) in [(21, 1), (64, 1), (65, 2), (128, 2), (129, 3)] {
        let image = meeting(sectors);
        for room in 0..needed {
            assert_eq!(kept(&image, room), (21, 0), "{sectors} {room}");
        }
        let mut list = vec![9; needed];
        let answer = check_in(&image, &mut list);
        assert_eq!((answer.number, answer.marked), (12, 14), "{sectors}");
        assert_eq!(list, vec![0; needed]);
    }
}

#[test]
fn after_1_to_11() {
    let images = faulty();
    for (number, image) in (1..).zip(&images[..11]) {
        let place = match number {
            8 => 4,
            9 => 3,
            10 => 2,
            _ => 0,
        };
        for room in [0, 1, 2, 40] {
            assert_eq!(kept(image, room), (number, place), "{room}");
        }
    }
    assert_eq!(kept(&images[11], 0), (21, 0));
    assert_eq!(kept(&mixed(), 0), (21, 0));
    assert_eq!(kept(&stream(), 0), (21, 0));
    assert_eq!(kept(b"", 0), (1, 0));
    assert_eq!(kept(b"", 3), (1, 0));
    // Copies that differ in an image whose areas meet, with a list a word short and with one that is not.
    let mut image = meeting(65);
    put64(&mut image, 48, 30);
    for room in [0, 1, 2, 3] {
        assert_eq!(kept(&image, room), (11, 0), "{room}");
    }
    put_entries(&mut image, 30, &[31]);
    put_entries(&mut image, 31, &[6, 13]);
    assert_eq!(kept(&image, 1), (21, 0));
    assert_eq!(refused(&image), 1 + 1 + 1 + 4 + 4 + 8);
    // A grain past the file, in the same image.
    set(&mut image, 1, 58);
    for room in [0, 1, 2, 3] {
        assert_eq!(kept(&image, room), (9, 1), "{room}");
    }
}

#[test]
fn the_rest_is_never_written() {
    for image in [kdmv(16, 8, 129), meeting(129)] {
        let number = check(&image).number;
        for held in HELD {
            for room in [3, 4, 5, 100] {
                let mut list = vec![held; room];
                assert_eq!(check_in(&image, &mut list).number, number);
                assert_eq!(list[..3], [0; 3]);
                assert!(list[3..].iter().all(|word| *word == held), "{room}");
            }
        }
    }
}

#[test]
fn what_the_list_held_has_no_influence() {
    // One bit at a time, over the words of an accepted image and of one that is refused 12.
    let (sound, meeting) = (kdmv(16, 8, 129), meeting(129));
    for bit in 0..4 * 64 {
        for (image, number, marked) in [(&sound, 0, 6), (&meeting, 12, 14)] {
            let mut list = [0; 4];
            list[bit / 64] = 1 << (bit % 64);
            let rest = list[3];
            let answer = check_in(image, &mut list);
            assert_eq!((answer.number, answer.marked), (number, marked), "{bit}");
            assert_eq!(list, [0, 0, 0, rest]);
        }
    }
}

#[test]
fn one_list_for_many_images() {
    let mut list = [u64::MAX; 3];
    for _ in 0..2 {
        for (image, number, marked, after) in [
            (kdmv(16, 8, 129), 0, 6, [0; 3]),
            (meeting(129), 12, 14, [0; 3]),
            (kdmv(16, 8, 200), 21, 0, [0; 3]),
            (mixed(), 0, 30, [0; 3]),
        ] {
            let answer = check_in(&image, &mut list);
            assert_eq!((answer.number, answer.marked), (number, marked));
            assert_eq!(list, after);
        }
    }
    // An image of fewer sectors leaves the later words to what they held.
    list = [1, 2, 3];
    assert_eq!(check_in(&mixed(), &mut list).marked, 30);
    assert_eq!(list, [0, 2, 3]);
    assert_eq!(check_in(&meeting(65), &mut list).marked, 14);
    assert_eq!(list, [0, 0, 3]);
}
