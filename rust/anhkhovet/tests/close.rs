//! Streams that broke off: every byte of a tail, what is kept, the refusals, and the memory that is lent.

mod common;

use anhkhovet::{check, close, lookup, raw, Closed, Refusal, Source};

/// What the lent output holds before a call.
const HELD: u8 = 0xa5;

fn put(bytes: &mut [u8], at: usize, number: u32) {
    bytes[at..at + 4].copy_from_slice(&number.to_le_bytes());
}

/// Capacity 43 in grains of 8 sectors, and no block yet: overhead is 3.
fn start() -> Vec<u8> {
    let mut image = vec![0; 3 * 512];
    image[..4].copy_from_slice(b"KDMV");
    for (at, number) in [(4, 3), (8, 0x30000), (12, 43), (20, 8), (44, 512), (64, 3)] {
        put(&mut image, at, number);
    }
    image[56..64].fill(0xff);
    image[77] = 1;
    image
}

/// A marker sector, and sectors of noise behind it.
fn add(image: &mut Vec<u8>, numbers: [u32; 3], sectors: usize) {
    let at = image.len();
    image.resize(at + 512 * (1 + sectors), 0xee);
    image[at + 4..at + 8].fill(0);
    for (offset, number) in [0, 8, 12].into_iter().zip(numbers) {
        put(image, at + offset, number);
    }
}

/// Grains 1 and 5, of two sectors and of one, from 3 on.
fn two_grains() -> Vec<u8> {
    let mut image = start();
    add(&mut image, [8, 600, 0], 1);
    add(&mut image, [40, 500, 0], 0);
    image
}

/// What is answered with this room, and the output; what is not the tail is as before.
fn answer(image: &[u8], room: usize) -> (Result<Closed, Refusal>, Vec<u8>) {
    let mut out = vec![HELD; room];
    let answer = close(image, &mut out);
    let written = answer.map_or(0, |closed| closed.length) as usize;
    assert!(out[written..].iter().all(|byte| *byte == HELD));
    (answer, out)
}

/// The tail, which there is room for exactly, and not with a byte less. What is kept and the tail are accepted.
fn tail(image: &[u8], sectors: u64, grains: u64) -> Vec<u8> {
    let (answered, mut out) = answer(image, 1 << 16);
    let closed = answered.unwrap();
    let length = closed.length;
    assert_eq!((closed.sectors, closed.grains), (sectors, grains));
    out.truncate(length as usize);
    assert_eq!(answer(image, out.len()), (Ok(closed), out.clone()));
    assert_refused(image, out.len() - 1, 21);
    assert!(check(&[closed.kept(image), &out].concat()).is_ok());
    out
}

fn assert_refused(image: &[u8], room: usize, number: u64) {
    let refused = Refusal { number, place: 0 };
    assert_eq!(answer(image, room).0, Err(refused));
}

#[test]
fn every_byte_of_a_tail() {
    let image = two_grains();
    // From sector 6 on: marker, table, marker, directory, marker, footer, a zero sector.
    let mut expected = vec![0; 10 * 512];
    expected[8 * 512..9 * 512].copy_from_slice(&image[..512]);
    expected[8 * 512 + 60..8 * 512 + 64].fill(0);
    let numbers = [
        (0, 4),
        (12, 1),
        (512 + 4, 3),
        (512 + 20, 5),
        (5 * 512, 1),
        (5 * 512 + 12, 2),
        (6 * 512, 7),
        (7 * 512 + 12, 3),
        (8 * 512 + 56, 12),
    ];
    for (at, number) in numbers {
        put(&mut expected, at, number);
    }
    assert_eq!(tail(&image, 6, 2), expected);
}

#[test]
fn kept_grains() {
    let image = two_grains();
    let closed = [&image[..], &tail(&image, 6, 2)].concat();
    let packed = |sector, size, offset| Source::Packed {
        sector,
        size,
        offset,
    };
    assert_eq!(lookup(&closed, 0), Ok(Source::Absent));
    assert_eq!(lookup(&closed, 9), Ok(packed(3, 600, 1)));
    assert_eq!(lookup(&closed, 24), Ok(Source::Absent));
    assert_eq!(lookup(&closed, 42), Ok(packed(5, 500, 2)));
    // Closed again it is the same.
    assert_eq!(tail(&closed, 6, 2), closed[6 * 512..]);
}

#[test]
fn what_follows_the_last_whole_grain() {
    let image = two_grains();
    // Cut in the second grain, in the first, and before both.
    for (length, sectors, grains) in [
        (6 * 512, 6, 2),
        (6 * 512 - 1, 5, 1),
        (5 * 512, 5, 1),
        (5 * 512 - 1, 3, 0),
        (3 * 512, 3, 0),
    ] {
        tail(&image[..length], sectors, grains);
    }
    // A table and half of another one, a grain that is there already, a type that is not known.
    for (numbers, sectors) in [
        ([4, 0, 1], 4),
        ([4, 0, 1], 3),
        ([40, 500, 0], 0),
        ([0, 0, 4], 0),
    ] {
        let mut more = image.clone();
        add(&mut more, numbers, sectors);
        assert_eq!(tail(&more, 6, 2), tail(&image, 6, 2));
    }
}

#[test]
fn refusals() {
    assert_refused(&[], 0, 1);
    assert_refused(&start()[..511], 1 << 16, 1);
    assert_refused(&common::image(), 1 << 16, 41);
    // Overhead under 2, then past the end; a redundant directory; half a descriptor; one that reaches past overhead.
    for changes in [
        &[(64, 1)][..],
        &[(64, 4)],
        &[(48, 1)],
        &[(28, 1)],
        &[(36, 1)],
        &[(28, 2), (36, 2)],
    ] {
        let mut image = start();
        for (at, number) in changes {
            put(&mut image, *at, *number);
        }
        assert_refused(&image, 0, 41);
    }
    // 6 comes before 41, and 41 before 21.
    let mut image = start();
    put(&mut image, 48, 1);
    put(&mut image, 12, 0);
    assert_refused(&image, 0, 6);
    assert_refused(&start(), 0, 21);
}

/// The root tells what the raw call says.
#[test]
fn raw_answers() {
    let (image, mut out) = (two_grains(), [HELD; 6000]);
    let closed = raw::close(&image, &mut out);
    let numbers = [closed.number, closed.place, closed.sectors, closed.grains];
    assert_eq!((numbers, closed.length), ([0, 0, 6, 2], 5120));
    let refused = raw::close(&image, &mut []);
    let expected = raw::Closed {
        number: 21,
        ..raw::Closed::default()
    };
    assert_eq!(refused, expected);
}
