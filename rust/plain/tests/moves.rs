//! Request A9: what the two moves write.

mod common;
#[path = "common/cowd.rs"]
mod cowd;
#[path = "common/moved.rs"]
mod moved;
#[path = "common/parts.rs"]
mod parts;

use common::{kdmv, put32, put64, set};
use cowd::cowd;
use moved::{checked, moved, refused, TO_COWD, TO_KDMV};
use parts::{pack, put_entries, put_footer};
use plain::{check, header, lookup, STORED};

/// Fills every sector from `first` on with its own number.
fn number_sectors(image: &mut [u8], first: usize) {
    for (sector, bytes) in image.chunks_mut(512).enumerate().skip(first) {
        bytes.fill(sector as u8);
    }
}

/// Three grains, the last of four sectors: stored at 46, absent, stored at 38.
fn old() -> Vec<u8> {
    let mut image = cowd(20, 8, 1, 54);
    put_entries(&mut image, 5, &[46, 0, 38]);
    number_sectors(&mut image, 38);
    image
}

/// The same grains in KDMV, stored at 16 and at 8.
fn young() -> Vec<u8> {
    let mut image = kdmv(20, 8, 24);
    put_entries(&mut image, 2, &[16, 0, 8]);
    number_sectors(&mut image, 8);
    image
}

/// The u32 at a place.
fn number(image: &[u8], at: usize) -> u32 {
    u32::from_le_bytes(image[at..at + 4].try_into().unwrap())
}

/// The entries at the start of a sector.
fn entries(image: &[u8], sector: usize, count: usize) -> Vec<u32> {
    let entries = 0..count;
    entries
        .map(|index| number(image, sector * 512 + index * 4))
        .collect()
}

#[test]
fn each_move_from_its_own_kind() {
    assert_eq!(refused(TO_KDMV, &young(), 1 << 16), (23, 0));
    assert_eq!(refused(TO_COWD, &old(), 1 << 16), (23, 0));
    // Compressed images, with the directory where sector 0 says and at the end.
    let mut image = kdmv(20, 8, 12);
    pack(&mut image);
    assert_eq!(check(&image).number, 0);
    assert_eq!(refused(TO_COWD, &image, 1 << 16), (23, 0));
    assert_eq!(refused(TO_KDMV, &image, 1 << 16), (23, 0));
    put_footer(&mut image, 1);
    assert_eq!(check(&image).number, 0);
    assert_eq!(refused(TO_COWD, &image, 1 << 16), (23, 0));
    assert_eq!(refused(TO_KDMV, &image, 1 << 16), (23, 0));
}

#[test]
fn every_byte_of_a_kdmv_result() {
    // The header is that of the tests' builder, with V.
    let mut expected = kdmv(20, 8, 24);
    put64(&mut expected, 64, 8);
    put_entries(&mut expected, 2, &[8, 0, 16]);
    for (at, from) in (8..20).zip((46..54).chain(38..42)) {
        expected[at * 512..][..512].fill(from);
    }
    assert_eq!(moved(TO_KDMV, &old()), expected);
}

#[test]
fn every_byte_of_a_cowd_result() {
    let mut expected = vec![0; 53 * 512];
    expected[..4].copy_from_slice(b"COWD");
    for (at, value) in [
        (4, 1),
        (8, 3),
        (12, 20),
        (16, 8),
        (20, 4),
        (24, 1),
        (28, 53),
        (4 * 512, 5),
        (5 * 512, 37),
        (5 * 512 + 8, 45),
    ] {
        put32(&mut expected, at, value);
    }
    for (at, from) in (37..49).zip((16..24).chain(8..12)) {
        expected[at * 512..][..512].fill(from);
    }
    assert_eq!(moved(TO_COWD, &young()), expected);
}

#[test]
fn images_without_a_grain() {
    let result = moved(TO_KDMV, &cowd(20, 8, 1, 37));
    assert_eq!(result.len(), 8 * 512);
    let result = moved(TO_COWD, &kdmv(20, 8, 6));
    assert_eq!((result.len(), number(&result, 28)), (37 * 512, 37));
    // Without a table either.
    let mut image = kdmv(20, 8, 2);
    put_entries(&mut image, 1, &[0]);
    assert_eq!(moved(TO_COWD, &image), result);
}

#[test]
fn rounding_on_one_side_only() {
    for (grain_size, v) in [(8, 8), (16, 16), (128, 128), (2048, 2048)] {
        let mut image = cowd(grain_size, grain_size, 1, 37 + grain_size as usize);
        put_entries(&mut image, 5, &[37]);
        let result = moved(TO_KDMV, &image);
        assert_eq!(entries(&result, 2, 1), [v]);
        assert_eq!(entries(&result, 0, 17)[16], v);
        assert_eq!(result.len(), 512 * (v + grain_size) as usize);
        let result = moved(TO_COWD, &result);
        assert_eq!(entries(&result, 5, 1), [37]);
        assert_eq!(result.len(), 512 * (37 + grain_size) as usize);
    }
}

#[test]
fn tables_of_4096_entries() {
    // A COWD table stands for eight of KDMV's; a sector of capacity more takes one more of either.
    for (capacity, old_tables, tables) in [
        (4096 * 8, 1, 8),
        (4096 * 8 + 1, 2, 9),
        (4095 * 8, 1, 8),
        (512 * 8, 1, 1),
        (512 * 8 + 1, 1, 2),
    ] {
        let mut image = kdmv(capacity, 8, 6);
        let result = moved(TO_COWD, &image);
        let named: Vec<u32> = (0..old_tables).map(|table| 5 + 32 * table).collect();
        assert_eq!(entries(&result, 4, old_tables as usize), named);
        assert_eq!(number(&result, 24), old_tables);
        assert_eq!(result.len(), 512 * (5 + 32 * old_tables as usize));
        let result = moved(TO_KDMV, &result);
        let named: Vec<u32> = (0..tables).map(|table| 2 + 4 * table).collect();
        assert_eq!(entries(&result, 1, tables as usize), named);
        // The last grain, in whichever table it is.
        image.resize(14 * 512, 7);
        let last = (capacity as usize - 1) / 8;
        put_entries(&mut image, 1, &vec![0; last / 512]);
        put32(&mut image, 512 + last / 512 * 4, 2);
        set(&mut image, last % 512, 6);
        let result = moved(TO_COWD, &image);
        // Tables stand back to back, so the last grain's entry is as far from the first one's.
        assert_ne!(number(&result, 5 * 512 + last * 4), 0);
        let result = moved(TO_KDMV, &result);
        assert_eq!(lookup(&result, capacity - 1).kind, STORED);
    }
}

#[test]
fn directories_of_two_sectors() {
    // 128 entries fill a sector of either.
    for (capacity, first_table) in [(128 * 4096, 2), (128 * 4096 + 1, 3)] {
        let result = moved(TO_KDMV, &cowd(capacity, 8, 17, 37));
        assert_eq!(entries(&result, 1, 2), [first_table, first_table + 4]);
    }
    for (capacity, count, first_table) in [(128 * 32768, 128, 5), (128 * 32768 + 1, 129, 6)] {
        let mut image = kdmv(capacity, 8, 20);
        put_entries(&mut image, 1, &[0]);
        let result = moved(TO_COWD, &image);
        assert_eq!(entries(&result, 4, 2), [first_table, first_table + 32]);
        assert_eq!(number(&result, 24), count);
    }
}

#[test]
fn entries_and_sectors_past_the_last_grain() {
    // What stands in the first image's unused entries and past its capacity is in neither result.
    let mut image = old();
    put_entries(&mut image, 5, &[46, 0, 38, 99, 1]);
    put32(&mut image, 37 * 512 - 4, 77);
    put32(&mut image, 4 * 512 + 4, 99);
    assert_eq!(moved(TO_KDMV, &image), moved(TO_KDMV, &old()));
    let mut image = young();
    put_entries(&mut image, 2, &[16, 0, 8, 1, 99]);
    put32(&mut image, 6 * 512 - 4, 1);
    put32(&mut image, 512 + 4, 1);
    image[12 * 512..16 * 512].fill(200);
    assert_eq!(moved(TO_COWD, &image), moved(TO_COWD, &young()));
}

#[test]
fn what_the_result_does_not_have() {
    // COWD: another flag, a higher stored count, header bytes, bytes past the last whole sector.
    let mut image = old();
    for (at, value) in [(8, 77), (24, 128), (28, 9), (100, 8), (2044, 7)] {
        put32(&mut image, at, value);
    }
    image.extend([1; 511]);
    assert_eq!(checked(&image), (0, 0));
    assert_eq!(moved(TO_KDMV, &image), moved(TO_KDMV, &old()));
    // KDMV: versions, flags, a descriptor, a second directory, overhead, padding, bytes past the last whole sector.
    let mut image = young();
    image.resize(30 * 512, 0);
    for (at, value) in [(28, 6), (36, 1), (48, 24), (64, 99), (200, 7)] {
        put64(&mut image, at, value);
    }
    put_entries(&mut image, 24, &[25]);
    image.copy_within(2 * 512..6 * 512, 25 * 512);
    image.extend([1; 511]);
    for [version, flags] in [[1, 0], [1, 3], [2, 2], [2, 7], [3, 1], [3, 4]] {
        (image[4], image[8]) = (version, flags);
        assert_eq!(check(&image).number, 0);
        assert_eq!(moved(TO_COWD, &image), moved(TO_COWD, &young()));
    }
}

#[test]
fn a_grain_at_sector_1() {
    // Where an entry of 1 is a sector it is a stored grain, and no zero one.
    let mut image = kdmv(8, 8, 16);
    put_entries(&mut image, 1, &[0]);
    number_sectors(&mut image, 1);
    put64(&mut image, 56, 9);
    image[9 * 512..].fill(0);
    put_entries(&mut image, 9, &[10]);
    put_entries(&mut image, 10, &[1]);
    assert_eq!(refused(TO_COWD, &image, 1 << 16), (44, 0));
    image[8] = 1;
    let result = moved(TO_COWD, &image);
    assert_eq!(result[37 * 512..], image[512..9 * 512]);
}

#[test]
fn a_stored_grain_of_zeros_stays_stored() {
    let mut image = young();
    image[8 * 512..].fill(0);
    let result = moved(TO_COWD, &image);
    assert_eq!(entries(&result, 5, 3), [37, 0, 45]);
    let result = moved(TO_KDMV, &result);
    assert_eq!(entries(&result, 2, 3), [8, 0, 16]);
    assert!(result[8 * 512..].iter().all(|byte| *byte == 0));
}

#[test]
fn results_are_clean() {
    let result = moved(TO_KDMV, &old());
    let head = header(&result);
    assert_eq!((head.number, head.dirty), (0, 0));
    assert_eq!((head.capacity, head.grain_size), (20, 8));
    // So either can be moved again.
    let back = moved(TO_COWD, &result);
    assert_eq!(number(&back, 1648), 0);
    assert_eq!(moved(TO_KDMV, &back), result);
}
