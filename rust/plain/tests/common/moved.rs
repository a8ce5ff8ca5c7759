//! Both moves, asked with several outputs.

use plain::{check, to_cowd, to_kdmv, Written};

/// Either call.
pub type Move = fn(&[u8], &mut [u8]) -> Written;
pub const TO_KDMV: Move = to_kdmv;
pub const TO_COWD: Move = to_cowd;

/// What outputs hold before a call.
const HELD: u8 = 0xa5;

/// The result of a move, which its own check accepts: all of it is written where there is just room for it, nothing past it
/// where there is more, and nothing where a byte of room is missing.
pub fn moved(way: Move, image: &[u8]) -> Vec<u8> {
    let mut out = vec![HELD; 1 << 22];
    let answer = way(image, &mut out);
    assert_eq!((answer.number, answer.place), (0, 0));
    let length = answer.length as usize;
    assert!(out[length..].iter().all(|byte| *byte == HELD));
    out.truncate(length);
    for spare in [0, 1, 513] {
        let mut other = vec![!HELD; length + spare];
        assert_eq!(way(image, &mut other), answer, "{spare}");
        assert!(other[..length] == out, "{spare}");
        assert!(other[length..].iter().all(|byte| *byte == !HELD), "{spare}");
    }
    assert_eq!(refused(way, image, length - 1), (21, 0));
    let public = if is_cowd(&out) { 43 } else { 0 };
    assert_eq!((checked(&out), check(&out).number), ((0, 0), public));
    out
}

fn is_cowd(image: &[u8]) -> bool {
    image.starts_with(b"COWD")
}

/// Number and place of the check of either kind, as both moves hand them on; 0 and 0 where it accepts the image.
pub fn checked(image: &[u8]) -> (u64, u64) {
    let (own, other) = if is_cowd(image) {
        (TO_KDMV, TO_COWD)
    } else {
        (TO_COWD, TO_KDMV)
    };
    let (found, judged) = (refused(own, image, 0), refused(other, image, 0));
    // The move that does not start from this kind has nothing but 23 to say of an accepted image.
    if judged == (23, 0) {
        assert!(found.0 > 12, "{found:?}");
        return (0, 0);
    }
    assert_eq!(found, judged);
    judged
}

/// Number and place of a refusal with this room for the output, no byte of which is written.
pub fn refused(way: Move, image: &[u8], room: usize) -> (u64, u64) {
    let mut out = vec![HELD; room];
    let answer = way(image, &mut out);
    let expected = Written {
        number: answer.number,
        place: answer.place,
        length: 0,
    };
    assert_eq!(answer, expected);
    assert_ne!(answer.number, 0);
    assert!(out.iter().all(|byte| *byte == HELD), "a byte was written");
    (answer.number, answer.place)
}
