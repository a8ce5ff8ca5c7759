//! The other refusals, and what the way does not look at.

use super::common::{kdmv, put32, put64};
use super::cowd::cowd;
use super::faulty::{faulty, mixed, stream};
use super::laid::{closed, furnished, with};
use super::parts::{put_entries, put_footer};
use super::versions::of;
use super::ways::{asked, nothing, one_is_sector, packed, refused, stored, way, NONE};
use plain::{PACKED, STORED};

#[test]
fn a_broken_marker() {
    // Grain 4 starts with sector 32, and its marker stands at sector 62, byte 31,744.
    let grain_4 = way(4, [512, 2], [1040, 62]);
    for (first, size, sound) in [
        (32, 2036, true),
        (32, 1, true),
        (32, 0, false),
        (31, 2036, false),
        (33, 2036, false),
        (0, 2036, false),
        (32 + (1 << 32), 2036, false),
    ] {
        let mut image = closed();
        put64(&mut image, 31_744, first);
        put32(&mut image, 31_752, size);
        let expected = if sound {
            packed([62, size.into(), 0], grain_4)
        } else {
            refused(10, 4, grain_4)
        };
        assert_eq!(asked(&image, 32), expected, "{first} {size}");
        // Another grain's marker is nothing to this one.
        let grain_2 = packed([9, 500, 0], way(2, [512, 2], [1032, 9]));
        assert_eq!(asked(&image, 16), grain_2);
    }
}

#[test]
fn the_end_of_the_disk() {
    let image = furnished();
    assert_eq!(asked(&image, 4120).number, 0);
    for sector in [4121, 4127, 1 << 32, u64::MAX] {
        assert_eq!(asked(&image, sector), nothing(20), "{sector}");
        assert_eq!(asked(&of(&image, [1, 1]), sector), nothing(20));
    }
    // 20 comes before 8.
    let mut image = furnished();
    put64(&mut image, 56, 0);
    assert_eq!(asked(&image, 4121), nothing(20));
    assert_eq!(asked(&image, 4120), refused(8, 2, way(515, NONE, NONE)));
}

#[test]
fn header_refusals() {
    for (number, image) in (1..8).zip(faulty()) {
        for sector in [0, 24, 32, 33, u64::MAX] {
            assert_eq!(asked(&image, sector), nothing(number));
        }
    }
    // The sound ones that those were made from.
    let grain_3 = way(3, [512, 2], [1036, 14]);
    assert_eq!(asked(&mixed(), 24), stored(14, grain_3));
    let grain_3 = way(3, [512, 2], [1036, 0]);
    assert_eq!(asked(&stream(), 24), grain_3);
    // The header is all there with 512 bytes, and then the directory is not.
    let image = mixed();
    assert_eq!(asked(&image[..511], 24), nothing(1));
    let outside = refused(8, 2, way(3, NONE, NONE));
    assert_eq!(asked(&image[..512], 24), outside);
    // Flag 0x4 is 5 in version 1, and 1 is a sector without it.
    assert_eq!(asked(&of(&image, [1, 5]), 24), nothing(5));
    let grain_3 = one_is_sector(way(3, [512, 2], [1036, 14]));
    assert_eq!(asked(&of(&image, [1, 1]), 24), stored(14, grain_3));
}

#[test]
fn old_images() {
    let mut old = cowd(20, 8, 1, 50);
    put_entries(&mut old, 5, &[0, 40]);
    for sector in [0, 8, 19, 20, u64::MAX] {
        assert_eq!(asked(&old, sector), nothing(43));
        assert_eq!(asked(&old[..2048], sector), nothing(43));
        assert_eq!(asked(&old[..2047], sector), nothing(1));
    }
    let mut image = kdmv(20, 8, 10);
    assert_eq!(asked(&image, 8), way(1, [512, 2], [1028, 0]));
    image[..4].copy_from_slice(b"COWD");
    assert_eq!(asked(&image, 8), nothing(43));
}

#[test]
fn one_refused_image_for_each_number() {
    let images = faulty();
    let to = |grain, table| way(grain, [512, 2], table);
    // 8: a table at 27 of 30 sectors.
    let outside = refused(8, 4, way(4, [512, 27], NONE));
    assert_eq!(asked(&images[7], 32), outside);
    // 9: of grains 3 and 4 each its own; grain 0 is served.
    assert_eq!(asked(&images[8], 24), refused(9, 3, to(3, [1036, 23])));
    assert_eq!(asked(&images[8], 32), refused(9, 4, to(4, [1040, 30])));
    assert_eq!(asked(&images[8], 0), stored(6, to(0, [1024, 6])));
    // 10: grain 2; grain 0 is served.
    assert_eq!(asked(&images[9], 16), refused(10, 2, to(2, [1032, 9])));
    assert_eq!(asked(&images[9], 2), packed([6, 513, 2], to(0, [1024, 6])));
    // 11 and 12 are no refusals of a sector.
    assert_eq!(asked(&images[10], 24), to(3, [1036, 0]));
    assert_eq!(asked(&images[11], 25), stored(14, to(3, [1036, 13])));
}

#[test]
fn what_is_not_looked_at() {
    // Outside: descriptor, redundant directory, its tables and their grains; flag 0x2, overhead, a dirty number.
    let sound = furnished();
    let mut image = with(&[(5, &[71, 71]), (30, &[99, 99]), (40, &[99])]);
    put64(&mut image, 28, 72);
    put64(&mut image, 64, u64::MAX);
    (image[8], image[72]) = (7, 1);
    let mut other = image.clone();
    put64(&mut other, 48, 74);
    for sector in 0..4122 {
        let expected = asked(&sound, sector);
        assert_eq!(asked(&image, sector), expected);
        assert_eq!(asked(&other, sector), expected);
    }
}

#[test]
fn each_sector_of_a_grain_goes_the_same_way() {
    let mut images = vec![furnished(), closed(), mixed(), stream()];
    images.extend(faulty());
    let mut footer = closed();
    put_footer(&mut footer, 70);
    images.push(footer);
    for image in images {
        for sector in 0..4130_u64 {
            let (first, steps) = (asked(&image, sector / 8 * 8), asked(&image, sector));
            if steps.number == 20 {
                assert_eq!(steps, nothing(20));
                continue;
            }
            let expected = match (first.number, first.kind) {
                (0, STORED) => stored(first.sector + sector % 8, first),
                (0, PACKED) => packed([first.sector, first.size, sector % 8], first),
                _ => first,
            };
            assert_eq!(steps, expected);
        }
    }
}
