//! Request A11: what comes before 42, and in which order: the check's numbers, 23, 27, 47.

mod common;
#[path = "common/faulty.rs"]
mod faulty;
#[path = "common/open.rs"]
mod open;
#[path = "common/parts.rs"]
mod parts;
#[path = "common/published.rs"]
mod published;

use common::{kdmv, put64, set};
use faulty::{faulty, mixed};
use open::{small, stream, stream_with, with, BYTES};
use parts::pack;
use plain::check;
use published::{assert_meets, empty, laid, published, refused};

#[test]
fn the_check_first() {
    for (number, image) in (1..).zip(faulty()) {
        let verdict = check(&image);
        assert_eq!(verdict.number, number);
        assert_eq!(refused(&image), (number, verdict.place));
    }
    assert_eq!(refused(b""), (1, 0));
    // A fault of an image with the profile's sizes.
    let mut image = with(&published(), 1);
    set(&mut image, 3, 257);
    assert_eq!(refused(&image), (9, 3));
    set(&mut image, 3, 255);
    assert_eq!(refused(&image), (12, 0));
}

#[test]
fn wrong_kinds_before_dirty() {
    let mut packed = empty();
    pack(&mut packed);
    assert_eq!(refused(&stream()), (23, 0));
    for image in [stream_with(1), with(&packed, 1)] {
        assert_eq!(check(&image).number, 0);
        assert_eq!(refused(&image), (23, 0));
    }
}

#[test]
fn dirty_images() {
    for dirty in BYTES {
        assert_eq!(refused(&with(&published(), dirty)), (27, 0), "{dirty}");
        // Before 47, and before a difference in an earlier byte.
        assert_eq!(refused(&with(&mixed(), dirty)), (27, 0), "{dirty}");
        assert_eq!(refused(&with(&small(), dirty)), (27, 0), "{dirty}");
        let mut image = with(&empty(), dirty);
        image[64] = 1;
        assert_eq!(refused(&image), (27, 0), "{dirty}");
    }
}

#[test]
fn grain_sizes() {
    for grain_size in [8, 16, 32, 64, 256, 512, 1024, 2048] {
        let image = kdmv(1 << 14, grain_size, 6);
        assert_eq!(check(&image).number, 0);
        assert_eq!(refused(&image), (47, 0), "{grain_size}");
    }
    assert_eq!(refused(&kdmv(1 << 14, 128, 6)), (42, 64));
}

#[test]
fn capacities() {
    for capacity in [128, 256, 65408, 65536] {
        assert_meets(&laid(capacity, 128, &[]), capacity);
        for other in [capacity - 127, capacity - 64, capacity - 1] {
            let image = laid(other, 128, &[]);
            assert_eq!(check(&image).number, 0);
            assert_eq!(refused(&image), (47, 0), "{other}");
        }
    }
    assert_eq!(refused(&laid(0, 128, &[])), (6, 0));
}

#[test]
fn sizes_before_a_difference() {
    // An image that is its own normal form but for its capacity, and one that is not.
    let mut image = empty();
    put64(&mut image, 12, 511);
    assert_eq!(refused(&image), (47, 0));
    image.push(0);
    image[4] = 3;
    assert_eq!(refused(&image), (47, 0));
    put64(&mut image, 12, 512);
    assert_eq!(refused(&image), (42, 4));
}

#[test]
fn the_largest_disks() {
    // Grains of 8 sectors would take tables of a gigabyte; they are refused before any is laid down.
    let mut image = kdmv(1 << 31, 8, 1 + 4096);
    image[512..516].fill(0);
    assert_eq!(check(&image).number, 0);
    assert_eq!(refused(&image), (47, 0));
}
