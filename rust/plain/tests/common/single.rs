//! Every call on one image but the moves, asked for its refusal with several rooms for what it would write.

use plain::{chain, check, check_in, close, frame, header, lookup, mend, normal, over, profile};
use plain::{read, steps, survey, Closed, Framed, Head, Located, Marked, Mended, Part, Steps};
use plain::{Verdict, Written};

/// Rooms from none to more than enough.
const ROOMS: [usize; 3] = [0, 1, 1 << 14];

/// What lent memory holds before a call.
const BYTE: u8 = 0xa5;
const WORD: u64 = 0x0123_4567_89ab_cdef;

/// That every call refuses an image with this number and place 0, has no other number and writes nothing.
pub fn assert_all(image: &[u8], number: u64) {
    let verdict = Verdict {
        number,
        ..Verdict::default()
    };
    assert_eq!((check(image), profile(image)), (verdict, verdict));
    let head = Head {
        number,
        ..Head::default()
    };
    assert_eq!(header(image), head);
    let located = Located {
        number,
        ..Located::default()
    };
    let nowhere = Steps {
        number,
        ..Steps::default()
    };
    for sector in [0, 19, 20, u64::MAX] {
        assert_eq!(lookup(image, sector), located);
        assert_eq!(steps(image, sector), nowhere);
        assert_eq!(chain(image, &[image.len() as u64], sector), located);
        assert_eq!(read(image, sector), Part::default());
    }
    for room in ROOMS {
        assert_words(image, number, room);
        assert_bytes(image, number, room);
    }
    let (mut row, mut tally) = ([WORD; 6], [WORD; 63]);
    survey(image, &[image.len() as u64], &mut row, &mut tally);
    assert_eq!(row, [0, 0, 0, 0, number, 0]);
}

/// The calls that are lent a list of so many words.
fn assert_words(image: &[u8], number: u64, room: usize) {
    let mut list = vec![WORD; room];
    let marked = Marked {
        number,
        ..Marked::default()
    };
    assert_eq!(check_in(image, &mut list), marked);
    let framed = Framed {
        number,
        ..Framed::default()
    };
    assert_eq!(frame(image, &mut list), framed);
    let mended = Mended {
        number,
        ..Mended::default()
    };
    for good in [0, 1] {
        let mut after = image.to_vec();
        assert_eq!(mend(&mut after, good, &mut list), mended);
        assert!(after == image, "a byte was written");
    }
    assert!(list.iter().all(|word| *word == WORD));
}

/// The calls that are lent an output of so many bytes.
fn assert_bytes(image: &[u8], number: u64, room: usize) {
    let mut out = vec![BYTE; room];
    let closed = Closed {
        number,
        ..Closed::default()
    };
    assert_eq!(close(image, &mut out), closed);
    let written = Written {
        number,
        ..Written::default()
    };
    assert_eq!(over(normal(image, room), &mut out), written);
    assert!(out.iter().all(|byte| *byte == BYTE));
}

/// That none of these calls refuses an image with this number.
pub fn assert_none(image: &[u8], number: u64) {
    let (mut list, mut out) = (vec![WORD; 1 << 10], vec![BYTE; 1 << 16]);
    let numbers = [
        check(image).number,
        profile(image).number,
        header(image).number,
        lookup(image, 0).number,
        steps(image, 0).number,
        chain(image, &[image.len() as u64], 0).number,
        check_in(image, &mut list).number,
        frame(image, &mut list).number,
        mend(&mut image.to_vec(), 0, &mut list).number,
        close(image, &mut out).number,
        over(normal(image, out.len()), &mut out).number,
    ];
    assert!(!numbers.contains(&number), "{numbers:?}");
}
