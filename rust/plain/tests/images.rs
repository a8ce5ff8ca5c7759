//! Document 01's examples on images, and an edge or two of each rule.

mod common;

use common::{kdmv, put32, put64, set};
use plain::{chain, check, lookup, read, Located, Part, ABSENT, PACKED, STORED, ZERO};

fn refused(image: &[u8]) -> (u64, u64) {
    let verdict = check(image);
    (verdict.number, verdict.place)
}

fn accepted(image: &[u8]) -> bool {
    refused(image) == (0, 0)
}

fn stored(sector: u64) -> Located {
    Located {
        kind: STORED,
        sector,
        ..Located::default()
    }
}

#[test]
fn capacity_200() {
    let verdict = check(&kdmv(200, 128, 6));
    assert_eq!(
        (verdict.number, verdict.capacity, verdict.grain_size),
        (0, 200, 128)
    );
    assert_eq!(refused(&kdmv(200, 128, 5)), (8, 4));
}

#[test]
fn the_sample_of_000() {
    let mut image = kdmv(8192, 128, 27 + 4 + 400);
    put32(&mut image, 512, 27);
    put32(&mut image, 27 * 512, 128);
    put32(&mut image, 27 * 512 + 8, 256);
    assert_eq!(lookup(&image, 2), stored(130));
    assert_eq!(lookup(&image, 128).kind, ABSENT);
    assert_eq!(lookup(&image, 256), stored(256));
    assert_eq!(lookup(&image, 8191).number, 0);
    assert_eq!(lookup(&image, 8192).number, 20);
    assert_eq!(
        read(&image, 2),
        Part {
            at: 130 * 512,
            length: 512
        }
    );
    assert_eq!(read(&image, 128), Part::default());
}

#[test]
fn directory_of_127_entries() {
    // n is 127: the 127th entry counts and the 128th does not.
    let mut image = kdmv(8_323_072, 128, 6);
    put32(&mut image, 512 + 127 * 4, 99);
    assert!(accepted(&image));
    put32(&mut image, 512 + 126 * 4, 99);
    assert_eq!(refused(&image), (8, 4));
}

#[test]
fn grain_sizes() {
    for (size, number) in [(4, 6), (12, 6), (4096, 6), (8, 0), (2048, 0), (0, 6)] {
        assert_eq!(refused(&kdmv(200, size, 6)).0, number, "{size}");
    }
}

#[test]
fn two_grains_on_one_sector() {
    let mut image = kdmv(32, 8, 30);
    set(&mut image, 0, 6);
    set(&mut image, 1, 14);
    assert!(accepted(&image));
    set(&mut image, 1, 13);
    assert_eq!(refused(&image), (12, 0));
    set(&mut image, 1, 6);
    assert_eq!(refused(&image), (12, 0));
}

#[test]
fn grains_at_the_end() {
    let mut image = kdmv(25, 8, 30);
    // The last grain has a full area though capacity ends in it.
    set(&mut image, 3, 22);
    assert!(accepted(&image));
    set(&mut image, 3, 23);
    assert_eq!(refused(&image), (9, 3));
    // Lowest grain first.
    set(&mut image, 1, u32::MAX);
    assert_eq!(refused(&image), (9, 1));
    assert_eq!(
        (lookup(&image, 24).number, lookup(&image, 24).place),
        (9, 3)
    );
    // Entries past the last grain are not judged.
    let mut image = kdmv(25, 8, 30);
    set(&mut image, 4, u32::MAX);
    assert!(accepted(&image));
}

#[test]
fn sums_do_not_wrap() {
    for directory in [u64::MAX - 1, u64::MAX - 2] {
        let mut image = kdmv(200, 128, 6);
        put64(&mut image, 56, directory);
        assert_eq!(refused(&image), (8, 2));
        let found = lookup(&image, 0);
        assert_eq!((found.number, found.place), (8, 2));
    }
    let mut image = kdmv(200, 128, 6);
    put64(&mut image, 28, u64::MAX);
    put64(&mut image, 36, 2);
    assert_eq!(refused(&image), (8, 1));
}

#[test]
fn packed_grains_and_footer() {
    let mut image = kdmv(16, 8, 12);
    put32(&mut image, 8, 0x30005);
    image[77] = 1;
    put64(&mut image, 56, u64::MAX);
    set(&mut image, 0, 1);
    set(&mut image, 1, 7);
    put64(&mut image, 7 * 512, 8);
    put32(&mut image, 7 * 512 + 8, 501);
    let first = image[..512].to_vec();
    image[10 * 512..11 * 512].copy_from_slice(&first);
    put64(&mut image, 10 * 512 + 56, 1);
    assert!(accepted(&image));
    assert_eq!(lookup(&image, 3).kind, ZERO);
    let packed = lookup(&image, 11);
    assert_eq!(
        (packed.kind, packed.sector, packed.size, packed.offset),
        (PACKED, 7, 501, 3)
    );
    assert_eq!(
        read(&image, 11),
        Part {
            at: 7 * 512 + 12,
            length: 501
        }
    );

    let mut short = image.clone();
    short.pop();
    assert_eq!(refused(&short), (7, 0));
    let mut other = image.clone();
    other[11 * 512 + 511] = 1;
    assert_eq!(refused(&other), (7, 0));
    for (at, value, expected) in [
        (0, 9, (10, 1)),
        (8, 0, (10, 1)),
        (8, 2549, (9, 1)),
        (8, 2548, (12, 0)),
        (8, 1525, (12, 0)),
    ] {
        let mut other = image.clone();
        put32(&mut other, 7 * 512 + at, value);
        assert_eq!(refused(&other), expected, "{at} {value}");
    }
}

#[test]
fn redundant_copies() {
    let mut image = kdmv(25, 8, 40);
    put64(&mut image, 48, 10);
    put32(&mut image, 10 * 512, 11);
    assert!(accepted(&image));
    set(&mut image, 2, 20);
    assert_eq!(refused(&image), (11, 0));
    put32(&mut image, 11 * 512 + 8, 20);
    assert!(accepted(&image));
    put32(&mut image, 11 * 512 + 16, 77);
    assert!(accepted(&image));
    put32(&mut image, 10 * 512, 2);
    assert_eq!(refused(&image), (12, 0));
    put32(&mut image, 10 * 512, 37);
    assert_eq!(refused(&image), (8, 5));
    put32(&mut image, 10 * 512, 1);
    assert_eq!(refused(&image), (11, 0));
}

#[test]
fn short_images() {
    assert_eq!(refused(b""), (1, 0));
    assert_eq!(refused(b"KDM"), (1, 0));
    assert_eq!(refused(b"KDMV"), (1, 0));
    assert_eq!(refused(b"KDMW"), (2, 0));
    let old = [&b"COWD"[..], &[0; 2044]].concat();
    assert_eq!(refused(&old[..2047]), (1, 0));
    assert_eq!(refused(&old), (43, 0));
    assert_eq!(refused(&kdmv(200, 128, 6)[..511]), (1, 0));
    assert_eq!(refused(&kdmv(200, 128, 6)[..512]), (8, 2));
}

#[test]
fn chains() {
    let mut base = kdmv(32, 8, 30);
    set(&mut base, 0, 6);
    set(&mut base, 1, 14);
    let mut top = kdmv(32, 8, 30);
    set(&mut top, 1, 1);
    let both = [base.clone(), top].concat();
    let lengths = [30 * 512, 30 * 512];
    assert_eq!(chain(&both, &lengths, 3), stored(9));
    let zero = chain(&both, &lengths, 8);
    assert_eq!((zero.layer, zero.kind), (1, ZERO));
    assert_eq!(chain(&both, &lengths, 31), Located::default());
    assert_eq!(chain(&both, &lengths, 32).number, 20);
    assert_eq!(chain(&both, &[30 * 512, 30 * 512 - 1], 0).number, 24);
    assert_eq!(chain(&both, &[u64::MAX, 60 * 512 + 1], 0).number, 24);
    assert_eq!(chain(b"", &[], 0).number, 24);
    assert_eq!(chain(b"", &[0; 17], 0).number, 24);
    let empty = chain(&both, &[30 * 512, 0, 30 * 512], 0);
    assert_eq!((empty.number, empty.layer), (1, 1));
    let other = [base, kdmv(33, 8, 30)].concat();
    assert_eq!(chain(&other, &lengths, 99).number, 22);
}
