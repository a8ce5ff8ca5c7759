//! Request A5: collapse and normal form refuse a dirty image 27, after 22 and before 21, and what they write is clean.

mod common;
#[path = "common/open.rs"]
mod open;
#[path = "common/parts.rs"]
mod parts;

use common::{kdmv, set};
use open::{small, stream, stream_with, with, BYTES};
use parts::pack;
use plain::{collapse, header, lookup, normal, over, Refusal, Written};

/// The number of a refusal, whose place is 0; 0 for a result.
fn number(result: Result<Vec<u8>, Refusal>) -> u64 {
    let refusal = result.err();
    assert_eq!(refusal.map_or(0, |refusal| refusal.place), 0);
    refusal.map_or(0, |refusal| refusal.number)
}

#[test]
fn any_number_but_0_is_dirty() {
    let clean = small();
    assert_eq!(number(normal(&clean, 1 << 16)), 0);
    assert_eq!(number(collapse(&clean, &clean, 1 << 16)), 0);
    for dirty in BYTES {
        let open = with(&clean, dirty);
        assert_eq!(number(normal(&open, 1 << 16)), 27, "{dirty}");
        // The lower alone, the upper alone, both.
        assert_eq!(number(collapse(&open, &clean, 1 << 16)), 27, "{dirty}");
        assert_eq!(number(collapse(&clean, &open, 1 << 16)), 27, "{dirty}");
        assert_eq!(number(collapse(&open, &open, 1 << 16)), 27, "{dirty}");
    }
}

#[test]
fn a_dirty_image_is_refused_without_a_byte_written() {
    let open = with(&small(), 1);
    let expected = Written {
        number: 27,
        ..Written::default()
    };
    let mut out = vec![3; 1 << 14];
    assert_eq!(over(normal(&open, out.len()), &mut out), expected);
    let result = collapse(&small(), &open, out.len());
    assert_eq!(over(result, &mut out), expected);
    assert!(out.iter().all(|byte| *byte == 3));
}

#[test]
fn before_21() {
    let (clean, open) = (small(), with(&small(), 255));
    let length = normal(&clean, 1 << 16).unwrap().len();
    // Nothing, too short even for an image of no grain, just enough for that, and a byte short for this one.
    for room in [0, 1, 8 * 512 - 1, 8 * 512, length - 1] {
        assert_eq!(number(normal(&clean, room)), 21, "{room}");
        assert_eq!(number(normal(&open, room)), 27, "{room}");
        assert_eq!(number(collapse(&clean, &clean, room)), 21, "{room}");
        assert_eq!(number(collapse(&open, &clean, room)), 27, "{room}");
        assert_eq!(number(collapse(&clean, &open, room)), 27, "{room}");
    }
    assert_eq!(number(normal(&open, length)), 27);
}

#[test]
fn after_22() {
    for other in [kdmv(21, 8, 20), kdmv(20, 16, 20)] {
        for (lower, upper) in [(1, 0), (0, 1), (1, 1)] {
            let (small, other) = (with(&small(), lower), with(&other, upper));
            assert_eq!(number(collapse(&small, &other, 0)), 22);
            assert_eq!(number(collapse(&other, &small, 0)), 22);
        }
    }
}

#[test]
fn after_23() {
    let mut packed = kdmv(20, 8, 20);
    pack(&mut packed);
    for image in [with(&packed, 1), stream_with(1)] {
        assert_eq!(number(normal(&image, 1 << 16)), 23);
        assert_eq!(number(collapse(&with(&small(), 1), &image, 0)), 23);
        assert_eq!(number(collapse(&image, &with(&small(), 1), 0)), 23);
    }
    for image in [packed, stream()] {
        assert_eq!(number(collapse(&with(&small(), 1), &image, 0)), 23);
        assert_eq!(number(collapse(&image, &with(&small(), 1), 0)), 23);
    }
}

#[test]
fn after_the_checks() {
    let open = with(&small(), 1);
    let mut bad = open.clone();
    set(&mut bad, 2, 9);
    assert_eq!(number(normal(&bad, 0)), 12);
    for other in [&small(), &open] {
        assert_eq!(number(collapse(&bad, other, 0)), 12);
        assert_eq!(number(collapse(other, &bad, 0)), 12);
    }
    set(&mut bad, 2, 99);
    let place = |result: Result<Vec<u8>, Refusal>| result.err().map(|found| found.place);
    assert_eq!(place(normal(&bad, 0)), Some(2));
    assert_eq!(place(collapse(&open, &bad, 0)), Some(2));
}

#[test]
fn what_is_written_is_clean() {
    let clean = small();
    for result in [normal(&clean, 1 << 16), collapse(&clean, &clean, 1 << 16)] {
        // The output's own byte before the call is not kept.
        let mut out = vec![255; 1 << 14];
        assert_eq!(over(result, &mut out).number, 0);
        assert_eq!(out[72], 0);
        assert_eq!((header(&out).number, header(&out).dirty), (0, 0));
        // So it is taken again, as it stands and collapsed.
        assert_eq!(number(normal(&out, 1 << 16)), 0);
        assert_eq!(number(collapse(&out, &clean, 1 << 16)), 0);
        assert_eq!(number(collapse(&out, &with(&clean, 1), 1 << 16)), 27);
    }
    // Byte 72 of a grain is no dirty number.
    let mut upper = small();
    upper[9 * 512 + 72] = 255;
    let result = collapse(&clean, &upper, 1 << 16).unwrap();
    assert_eq!(result[72], 0);
    let grain = lookup(&result, 8).sector as usize;
    assert_eq!(result[grain * 512 + 72], 255);
}
