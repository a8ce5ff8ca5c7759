//! The lab profile: what meets it, each part on its own, each refusal and their order, the length on both sides of the edge.

use anhkhovet::{collapse, header, normal, profile, raw, Counted, Disk, Refusal};
use std::fs;

const DISK: Disk = Disk {
    capacity: 384,
    grain_size: 128,
};
/// The first byte of the first stored grain.
const V: usize = 128 * 512;

fn put(image: &mut [u8], at: usize, number: u32) {
    image[at..at + 4].copy_from_slice(&number.to_le_bytes());
}

/// Three grains: stored at 128, zero, stored at 256. The directory stands at 1, the table at 2 to 5.
fn published() -> Vec<u8> {
    let mut image = vec![0; 384 * 512];
    image[..4].copy_from_slice(b"KDMV");
    let header = [
        (4, 2),
        (8, 5),
        (12, 384),
        (20, 128),
        (44, 512),
        (56, 1),
        (64, 128),
    ];
    let entries = [
        (512, 2),
        (2 * 512, 128),
        (2 * 512 + 4, 1),
        (2 * 512 + 8, 256),
    ];
    for (at, number) in header.into_iter().chain(entries) {
        put(&mut image, at, number);
    }
    image[73..77].copy_from_slice(b"\n \r\n");
    image[V..].fill(7);
    image
}

fn refused(number: u64, place: usize) -> Result<Disk, Refusal> {
    let place = place as u64;
    Err(Refusal { number, place })
}

/// What is answered with a byte changed.
fn with(at: usize, byte: u8) -> Result<Disk, Refusal> {
    let mut image = published();
    image[at] = byte;
    profile(&image)
}

#[test]
fn met() {
    let image = published();
    assert_eq!(profile(&image), Ok(DISK));
    let answer = raw::profile(&image);
    assert_eq!((answer.number, answer.place), (0, 0));
    assert_eq!((answer.capacity, answer.grain_size), (384, 128));
    // It is its own normal form, and any bytes of its grains are.
    let mut out = vec![0; image.len()];
    assert_eq!(normal(&image, &mut out), Ok(image.len() as u64));
    assert_eq!(out, image);
    assert_eq!(with(V, 0), Ok(DISK));
    assert_eq!(with(image.len() - 1, 0), Ok(DISK));
}

#[test]
fn each_part_of_the_header() {
    for (at, byte) in [(4, 3), (8, 4), (64, 0), (71, 1), (79, 1), (511, 255)] {
        assert_eq!(with(at, byte), refused(42, at));
    }
    let mut described = published();
    described.extend([0; 512]);
    put(&mut described, 28, 384);
    put(&mut described, 36, 1);
    assert_eq!(profile(&described), refused(42, 28));
    let mut moved = published();
    moved.extend_from_within(512..1024);
    put(&mut moved, 56, 384);
    assert_eq!(profile(&moved), refused(42, 56));
}

#[test]
fn directory_table_and_gap() {
    // Unused parts of the directory and of the table, both ends of the gap.
    for at in [516, 1023, 2 * 512 + 12, 6 * 512 - 1, 6 * 512, V - 1] {
        assert_eq!(with(at, 1), refused(42, at));
    }
    let mut no_table = published();
    put(&mut no_table, 512, 0);
    assert_eq!(profile(&no_table), refused(42, 512));
    let mut turned = published();
    put(&mut turned, 2 * 512, 256);
    put(&mut turned, 2 * 512 + 8, 128);
    // 256 is 00 01, and 128 is 80.
    assert_eq!(profile(&turned), refused(42, 2 * 512));
    let mut dropped = published();
    put(&mut dropped, 2 * 512, 0);
    assert_eq!(profile(&dropped), refused(42, 2 * 512 + 8));
}

#[test]
fn the_length() {
    let image = published();
    for more in [1, 511, 512, 513] {
        let longer = [&image[..], &vec![0; more]].concat();
        assert_eq!(profile(&longer), refused(42, image.len()));
    }
    // Its last grain is not named: the form ends before it.
    let mut dropped = image.clone();
    put(&mut dropped, 2 * 512 + 8, 0);
    assert_eq!(profile(&dropped), refused(42, 256 * 512));
    put(&mut dropped, 2 * 512, 0);
    assert_eq!(profile(&dropped), refused(42, V));
    assert_eq!(profile(&dropped[..V]), Ok(DISK));
    for length in [6 * 512, 6 * 512 + 1, V - 1] {
        assert_eq!(profile(&dropped[..length]), refused(42, length));
    }
    assert_eq!(profile(&dropped[..6 * 512 - 1]), refused(8, 4));
}

#[test]
fn sizes() {
    for (capacity, answer) in [(383, 47), (257, 47), (1, 47)] {
        let mut image = published();
        put(&mut image, 12, capacity);
        assert_eq!(profile(&image), refused(answer, 0));
    }
    let mut size = published();
    put(&mut size, 20, 64);
    assert_eq!(profile(&size), refused(47, 0));
}

#[test]
fn the_order() {
    // The check, with its place; 23; 27; 47; 42.
    let mut image = published();
    image[4] = 3;
    assert_eq!(profile(&image), refused(42, 4));
    put(&mut image, 12, 383);
    assert_eq!(profile(&image), refused(47, 0));
    image[72] = 1;
    assert_eq!(profile(&image), refused(27, 0));
    put(&mut image, 2 * 512 + 8, 257);
    assert_eq!(profile(&image), refused(9, 2));
    for sample in ["tool-packed", "vmdkstream"] {
        let image = fs::read(format!("../../samples/{sample}.vmdk")).unwrap();
        assert!(header(&image).is_ok());
        assert_eq!(profile(&image), refused(23, 0));
    }
    assert_eq!(profile(&[]), refused(1, 0));
}

#[test]
fn a_collapse_of_two_meets_it() {
    let lower = published();
    let mut upper = published();
    put(&mut upper, 2 * 512, 1);
    put(&mut upper, 2 * 512 + 4, 128);
    put(&mut upper, 2 * 512 + 8, 0);
    upper.truncate(256 * 512);
    assert_eq!(profile(&upper), Ok(DISK));
    let mut out = vec![0; 1 << 20];
    for (lower, upper) in [(&lower, &upper), (&upper, &lower)] {
        let length = collapse(lower, upper, &mut out).unwrap() as usize;
        assert_eq!(profile(&out[..length]), Ok(DISK));
    }
}

#[test]
fn words() {
    let refusal = profile(&published()[..V]).unwrap_err();
    assert_eq!((refusal.number, refusal.counted()), (9, Counted::Grain));
    let refusal = with(64, 0).unwrap_err();
    assert_eq!(refusal.counted(), Counted::Byte);
    assert_eq!(
        refusal.to_string(),
        "refused 42 at byte 64: from here on the file is not its own normal form"
    );
}
