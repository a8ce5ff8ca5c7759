//! Request A11: what meets the profile, and the first byte in which an image differs from its normal form.

mod common;
#[path = "common/parts.rs"]
mod parts;
#[path = "common/published.rs"]
mod published;

use common::{kdmv, put32, put64, set};
use parts::{pack, put_entries, put_footer};
use plain::{check, collapse, normal};
use published::{assert_meets, empty, laid, published, refused};

/// That an image is accepted and differs from its normal form in this byte first.
fn assert_differs(image: &[u8], place: usize) {
    assert_eq!(check(image).number, 0);
    assert_eq!(refused(image), (42, place as u64));
    let form = normal(image, 1 << 24).unwrap();
    assert_eq!(image[..place], form[..place]);
    assert_ne!(image.get(place), form.get(place));
}

/// `published` with the u32 at a place changed.
fn published_but(at: usize, value: u32) -> Vec<u8> {
    let mut image = published();
    put32(&mut image, at, value);
    image
}

#[test]
fn what_meets_it() {
    assert_meets(&published(), 512);
    assert_meets(&empty(), 512);
    assert_meets(&laid(128, 128, &[]), 128);
    assert_meets(&laid(512, 128, &[1, 1, 0, 1]), 512);
    assert_meets(&laid(512, 256, &[0, 0, 0, 128]), 512);
    // A stored grain of zeros, and any bytes in one.
    assert_meets(&laid(512, 640, &[128, 256, 384, 512]), 512);
    let mut image = published();
    image[128 * 512..].fill(0xff);
    assert_meets(&image, 512);
}

#[test]
fn wrong_kinds() {
    // The profile's sizes in each.
    let mut image = empty();
    pack(&mut image);
    assert_eq!(check(&image).number, 0);
    assert_eq!(refused(&image), (23, 0));
    put_footer(&mut image, 1);
    assert_eq!(check(&image).number, 0);
    assert_eq!(refused(&image), (23, 0));
}

#[test]
fn every_byte_that_no_rule_judges() {
    // Overhead, padding, unused entries of directory and table, and the gap before the grains.
    let unused = (64..72)
        .chain(79..512)
        .chain(516..1024)
        .chain(1024 + 16..128 * 512);
    let mut image = published();
    for at in unused {
        image[at] ^= 0x80;
        assert_eq!(refused(&image), (42, at as u64));
        image[at] ^= 0x80;
    }
}

#[test]
fn the_first_of_several() {
    let mut image = published();
    for at in [128 * 512 - 1, 6 * 512, 1024 + 16, 516, 511, 79, 64] {
        image[at] ^= 0x80;
        assert_differs(&image, at);
    }
}

#[test]
fn versions_and_flags() {
    assert_differs(&published_but(4, 3), 4);
    assert_differs(&published_but(8, 4), 8);
    // Where 1 is a sector: no grain is zero, and none stands at sector 1.
    let mut image = laid(512, 384, &[128, 0, 0, 256]);
    assert_meets(&image, 512);
    image[8] = 1;
    assert_differs(&image, 8);
    image[4] = 1;
    assert_differs(&image, 4);
    // Without the newline test its bytes may be others.
    (image[4], image[8], image[73]) = (2, 4, 0);
    assert_differs(&image, 8);
}

#[test]
fn numbers_of_the_header() {
    let mut image = published();
    put64(&mut image, 28, 6);
    put64(&mut image, 36, 1);
    assert_differs(&image, 28);
    // A descriptor whose sector has a zero byte first.
    let mut image = published();
    image.resize(400 * 512, 0);
    put64(&mut image, 28, 0x100);
    assert_eq!(refused(&image), (8, 1));
    put_entries(&mut image, 2, &[128, 1, 0, 0]);
    put64(&mut image, 36, 1);
    assert_differs(&image, 29);
    // A redundant directory and its table in the gap.
    let mut image = published();
    put64(&mut image, 48, 10);
    put_entries(&mut image, 10, &[11]);
    image.copy_within(2 * 512..6 * 512, 11 * 512);
    assert_differs(&image, 48);
    image[8] = 7;
    assert_differs(&image, 8);
    // The directory elsewhere.
    let mut image = published();
    put64(&mut image, 56, 10);
    put_entries(&mut image, 10, &[2]);
    assert_differs(&image, 56);
}

#[test]
fn tables_elsewhere_or_none() {
    let mut image = published();
    image.copy_within(2 * 512..6 * 512, 10 * 512);
    put_entries(&mut image, 1, &[10]);
    assert_differs(&image, 512);
    for entry in [0, 1] {
        let mut image = empty();
        put_entries(&mut image, 1, &[entry]);
        assert_differs(&image, 512);
    }
}

#[test]
fn grains_elsewhere() {
    // 128 and 256 differ in their first byte, 256 and 512 in their second.
    assert_differs(&laid(512, 384, &[256, 0, 128, 0]), 1024);
    assert_differs(&laid(512, 640, &[128, 512, 256, 384]), 1024 + 5);
    assert_differs(&laid(512, 512, &[128, 0, 0, 257]), 1024 + 12);
    // A grain that stands before V, back to back with the table.
    assert_differs(&laid(512, 256, &[6, 0, 0, 0]), 1024);
    // A sector left out between grains.
    assert_differs(&laid(512, 385, &[128, 257, 0, 0]), 1024 + 4);
}

#[test]
fn longer_than_the_normal_form() {
    for (image, length) in [(published(), 384 * 512), (empty(), 128 * 512)] {
        for more in [1, 511, 512, 513, 128 * 512] {
            let mut longer = image.clone();
            longer.resize(length + more, 0);
            assert_differs(&longer, length);
            longer[length..].fill(7);
            assert_differs(&longer, length);
            longer[100] = 1;
            assert_differs(&longer, 100);
        }
    }
}

#[test]
fn shorter_than_the_normal_form() {
    // All that is left out is of the gap; what is there of a last sector counts as bytes of the image.
    for length in [6 * 512, 6 * 512 + 1, 7 * 512 - 1, 7 * 512, 128 * 512 - 1] {
        assert_differs(&empty()[..length], length);
        let mut image = empty()[..length].to_vec();
        image[1024 + 16] = 1;
        assert_differs(&image, 1024 + 16);
    }
    assert_eq!(refused(&empty()[..6 * 512 - 1]), (8, 4));
    let mut image = empty()[..6 * 512 + 9].to_vec();
    image[6 * 512 + 8] = 1;
    assert_differs(&image, 6 * 512 + 8);
    assert_eq!(refused(&published()[..384 * 512 - 1]), (9, 3));
}

#[test]
fn more_than_one_table() {
    // Tables of 512 grains; 128 entries fill the directory's first sector.
    for (capacity, sectors) in [
        (65536, 128),
        (65536 + 128, 128),
        (30 * 65536, 128),
        (31 * 65536, 128),
        (32 * 65536, 256),
        (128 * 65536, 640),
        (129 * 65536, 640),
    ] {
        let mut image = kdmv(capacity, 128, 3);
        put_entries(&mut image, 1, &[0]);
        let form = normal(&image, 1 << 24).unwrap();
        assert_eq!(form.len(), sectors * 512);
        assert_meets(&form, capacity);
        // The first entry past the last table's.
        let entries = (capacity as usize + 65535) / 65536;
        let mut other = form;
        if entries % 128 != 0 {
            other[512 + 4 * entries] = 1;
            assert_differs(&other, 512 + 4 * entries);
        }
        put64(&mut image, 64, sectors as u64);
        assert_differs(&image, 512);
    }
}

#[test]
fn collapses_of_profile_images_meet_it() {
    let (lower, mut upper) = (published(), laid(512, 384, &[0, 128, 1, 256]));
    upper[128 * 512..].fill(9);
    for (lower, upper) in [
        (&lower, &upper),
        (&upper, &lower),
        (&lower, &empty()),
        (&empty(), &lower),
        (&lower, &lower),
    ] {
        assert_meets(lower, 512);
        assert_meets(upper, 512);
        assert_meets(&collapse(lower, upper, 1 << 20).unwrap(), 512);
    }
    // So does the normal form of any image with these sizes.
    let mut image = kdmv(512, 128, 300);
    set(&mut image, 2, 172);
    image[172 * 512..].fill(5);
    assert_eq!(refused(&image), (42, 64));
    assert_meets(&normal(&image, 1 << 20).unwrap(), 512);
}
