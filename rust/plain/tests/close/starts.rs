//! Starts of streams, added to block by block, and their closings.

use super::common::{kdmv, put32, put64};
use plain::{check, close, lookup, Closed, Located, PACKED};

/// What outputs hold before a call.
const HELD: u8 = 0xa5;

/// A kept grain: its number, its marker's sector and its size.
pub type Grain = (u64, u64, u64);

/// A header with grains of 8 sectors and its directory at the end, and sectors of any bytes up to the overhead sector.
pub fn start(capacity: u64, overhead: usize) -> Vec<u8> {
    let mut image = kdmv(capacity, 8, 1);
    put32(&mut image, 8, 0x30005);
    image[77] = 1;
    put64(&mut image, 56, u64::MAX);
    put64(&mut image, 64, overhead as u64);
    image.resize(overhead * 512, 0xee);
    image
}

/// Adds a marker with this first number, size and type, and so many sectors of any bytes.
pub fn add(image: &mut Vec<u8>, first: u64, size: u32, kind: u32, sectors: usize) {
    let at = image.len();
    image.resize(at + 512, 0);
    put64(image, at, first);
    put32(image, at + 8, size);
    put32(image, at + 12, kind);
    image.resize(at + 512 + 512 * sectors, 0xee);
}

/// Adds a grain of this size, whole.
pub fn add_grain(image: &mut Vec<u8>, grain: u64, size: u32) {
    let sectors = (12 + size as usize + 511) / 512;
    add(image, 8 * grain, size, 0xeeee_eeee, sectors - 1);
}

/// The kept part and the tail of a start whose closing keeps these sectors and grains: an accepted image that serves them from where
/// they stood, and nothing else. Closed again it stays as it is.
pub fn closed(image: &[u8], sectors: u64, grains: &[Grain]) -> Vec<u8> {
    let whole = joined(image, sectors, grains.len() as u64);
    let verdict = check(&whole);
    assert_eq!((verdict.number, verdict.place), (0, 0));
    for sector in 0..verdict.capacity {
        let own = grains.iter().find(|grain| grain.0 == sector / 8);
        let expected = own.map_or(Located::default(), |(_, marker, size)| Located {
            kind: PACKED,
            sector: *marker,
            size: *size,
            offset: sector % 8,
            ..Located::default()
        });
        assert_eq!(lookup(&whole, sector), expected, "{sector}");
    }
    assert!(joined(&whole, sectors, grains.len() as u64) == whole);
    whole
}

/// The kept part and the tail, which is written whole where there is just room for it; nothing is written past it where there is more,
/// and nothing at all where a byte of room is missing.
pub fn joined(image: &[u8], sectors: u64, grains: u64) -> Vec<u8> {
    let mut out = vec![HELD; 1 << 22];
    let answer = close(image, &mut out);
    let length = answer.length as usize;
    let expected = Closed {
        sectors,
        grains,
        length: answer.length,
        ..Closed::default()
    };
    assert_eq!(answer, expected);
    assert!(out[length..].iter().all(|byte| *byte == HELD));
    out.truncate(length);
    for spare in [0, 1, 513] {
        let mut other = vec![!HELD; length + spare];
        assert_eq!(close(image, &mut other), answer, "{spare}");
        assert!(other[..length] == out, "{spare}");
        assert!(other[length..].iter().all(|byte| *byte == !HELD), "{spare}");
    }
    assert_eq!(refused(image, length - 1), 21);
    let mut whole = image[..sectors as usize * 512].to_vec();
    whole.extend(out);
    whole
}

/// The number of a refusal with this room, whose place is 0 and which writes no byte.
pub fn refused(image: &[u8], room: usize) -> u64 {
    let mut out = vec![HELD; room];
    let answer = close(image, &mut out);
    let expected = Closed {
        number: answer.number,
        ..Closed::default()
    };
    assert_eq!(answer, expected);
    assert_ne!(answer.number, 0);
    assert!(out.iter().all(|byte| *byte == HELD), "a byte was written");
    answer.number
}
