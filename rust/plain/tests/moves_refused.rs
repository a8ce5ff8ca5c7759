//! Request A9: what the moves refuse, and in which order: the check's numbers, 23, 27, 44, 21.

mod common;
#[path = "common/cowd.rs"]
mod cowd;
#[path = "common/faulty.rs"]
mod faulty;
#[path = "common/moved.rs"]
mod moved;
#[path = "common/open.rs"]
mod open;
#[path = "common/parts.rs"]
mod parts;

use common::{kdmv, put32, put64, set};
use cowd::cowd;
use faulty::{faulty, mixed, stream};
use moved::{checked, moved, refused, TO_COWD, TO_KDMV};
use open::{small, stream_with, with, BYTES};
use parts::put_entries;
use plain::check;

/// Rooms from none to more than enough.
const ROOMS: [usize; 4] = [0, 1, 8 * 512, 1 << 16];

/// Three grains of COWD, of which the second is stored.
fn old() -> Vec<u8> {
    let mut image = cowd(20, 8, 1, 50);
    put_entries(&mut image, 5, &[0, 40]);
    image
}

/// A COWD image with another dirty number.
fn cowd_with(image: &[u8], dirty: u32) -> Vec<u8> {
    let mut image = image.to_vec();
    put32(&mut image, 1648, dirty);
    image
}

/// That both moves refuse an image with this number and place, whatever the room.
fn assert_both(image: &[u8], refusal: (u64, u64)) {
    for room in ROOMS {
        assert_eq!(refused(TO_KDMV, image, room), refusal, "{room}");
        assert_eq!(refused(TO_COWD, image, room), refusal, "{room}");
    }
}

#[test]
fn the_check_of_kdmv_first() {
    for (number, image) in (1..).zip(faulty()) {
        let place = match number {
            8 => 4,
            9 => 3,
            10 => 2,
            _ => 0,
        };
        assert_both(&image, (number, place));
        // That the disk was still open changes nothing; one with a footer says so there too, which this one would not.
        if number > 2 && number != 10 {
            assert_both(&with(&image, 1), (number, place));
        }
    }
    assert_both(b"", (1, 0));
}

#[test]
fn wrong_kinds() {
    assert_eq!(check(&mixed()).number, 0);
    assert_eq!(check(&stream()).number, 0);
    for room in ROOMS {
        // The grains that would be 44 in the other call are not looked at.
        assert_eq!(refused(TO_KDMV, &mixed(), room), (23, 0));
        assert_eq!(refused(TO_KDMV, &small(), room), (23, 0));
        assert_eq!(refused(TO_COWD, &old(), room), (23, 0));
        assert_eq!(refused(TO_COWD, &cowd(20, 4, 1, 37), room), (23, 0));
        assert_eq!(refused(TO_COWD, &stream(), room), (23, 0));
        assert_eq!(refused(TO_KDMV, &stream(), room), (23, 0));
    }
}

#[test]
fn wrong_kinds_before_dirty() {
    for room in ROOMS {
        assert_eq!(refused(TO_KDMV, &with(&small(), 1), room), (23, 0));
        assert_eq!(refused(TO_COWD, &cowd_with(&old(), 1), room), (23, 0));
        assert_eq!(refused(TO_COWD, &stream_with(1), room), (23, 0));
        assert_eq!(refused(TO_KDMV, &stream_with(1), room), (23, 0));
    }
}

#[test]
fn dirty_images() {
    moved(TO_COWD, &small());
    for dirty in BYTES {
        for room in ROOMS {
            assert_eq!(refused(TO_COWD, &with(&small(), dirty), room), (27, 0));
        }
    }
    moved(TO_KDMV, &old());
    for bit in 0..32 {
        let image = cowd_with(&old(), 1 << bit);
        for room in ROOMS {
            assert_eq!(refused(TO_KDMV, &image, room), (27, 0), "{bit}");
        }
    }
}

#[test]
fn dirty_before_44() {
    for room in ROOMS {
        let mut image = with(&small(), 1);
        set(&mut image, 0, 1);
        assert_eq!(refused(TO_COWD, &image, room), (27, 0));
        image[72] = 0;
        assert_eq!(refused(TO_COWD, &image, room), (44, 0));
        let mut image = cowd_with(&cowd(20, 4, 1, 37), 1);
        assert_eq!(refused(TO_KDMV, &image, room), (27, 0));
        put32(&mut image, 1648, 0);
        assert_eq!(refused(TO_KDMV, &image, room), (44, 0));
    }
}

#[test]
fn grain_sizes_under_8() {
    for grain_size in [1, 2, 4] {
        let image = cowd(20, grain_size, 1, 37);
        assert_eq!(checked(&image), (0, 0));
        for room in ROOMS {
            assert_eq!(refused(TO_KDMV, &image, room), (44, 0), "{grain_size}");
        }
    }
    for grain_size in [8, 16, 2048] {
        moved(TO_KDMV, &cowd(20, grain_size, 1, 37));
        moved(TO_COWD, &kdmv(20, grain_size.into(), 6));
    }
}

#[test]
fn zero_grains() {
    // Each of three grains alone.
    for grain in 0..3 {
        let mut image = small();
        set(&mut image, grain, 1);
        for room in ROOMS {
            assert_eq!(refused(TO_COWD, &image, room), (44, 0), "{grain}");
        }
        set(&mut image, grain, 0);
        moved(TO_COWD, &image);
    }
    // An entry past the last grain is none, until capacity reaches it.
    let mut image = small();
    set(&mut image, 3, 1);
    moved(TO_COWD, &image);
    put64(&mut image, 12, 24);
    moved(TO_COWD, &image);
    put64(&mut image, 12, 25);
    assert_eq!(refused(TO_COWD, &image, 0), (44, 0));
}

#[test]
fn zero_grains_by_the_directory() {
    let mut image = kdmv(3 * 4096, 8, 10);
    for (entries, zero) in [
        ([2, 0, 0, 1], false),
        ([2, 0, 1, 0], true),
        ([2, 1, 0, 0], true),
        ([1, 0, 2, 0], true),
        ([0, 0, 0, 0], false),
    ] {
        put_entries(&mut image, 1, &entries);
        if zero {
            assert_eq!(refused(TO_COWD, &image, 1 << 20), (44, 0), "{entries:?}");
        } else {
            moved(TO_COWD, &image);
        }
    }
    // An entry of the last table, of which only its first grain is below capacity.
    put64(&mut image, 12, 2 * 4096 + 1);
    put_entries(&mut image, 1, &[0, 0, 2]);
    set(&mut image, 1, 1);
    moved(TO_COWD, &image);
    set(&mut image, 0, 1);
    assert_eq!(refused(TO_COWD, &image, 1 << 20), (44, 0));
}

#[test]
fn an_entry_of_1_that_is_no_zero_grain() {
    // Where 1 is a sector, this image's first grain would meet its directory.
    let mut image = small();
    set(&mut image, 0, 1);
    for [version, flags] in [[2, 5], [3, 5], [2, 4]] {
        (image[4], image[8]) = (version, flags);
        assert_eq!(refused(TO_COWD, &image, 1 << 16), (44, 0));
    }
    for [version, flags] in [[1, 1], [2, 1], [3, 0]] {
        (image[4], image[8]) = (version, flags);
        assert_eq!(refused(TO_COWD, &image, 1 << 16), (12, 0));
    }
}

#[test]
fn room_comes_last() {
    // No room, too little for an image without a grain, just that much, and a byte less than all.
    for room in [0, 1, 8 * 512 - 1, 8 * 512, 16 * 512 - 1] {
        assert_eq!(refused(TO_KDMV, &old(), room), (21, 0), "{room}");
    }
    assert_eq!(moved(TO_KDMV, &old()).len(), 16 * 512);
    for room in [0, 1, 37 * 512 - 1, 37 * 512, 45 * 512 - 1] {
        assert_eq!(refused(TO_COWD, &small(), room), (21, 0), "{room}");
    }
    assert_eq!(moved(TO_COWD, &small()).len(), 45 * 512);
}

#[test]
fn the_largest_disks() {
    // Their tables alone would take a gigabyte.
    let mut image = kdmv(1 << 31, 8, 1 + 4096);
    put_entries(&mut image, 1, &[0]);
    assert_eq!(check(&image).number, 0);
    assert_eq!(refused(TO_COWD, &image, 1 << 20), (21, 0));
    put32(&mut image, 4097 * 512 - 4, 1);
    assert_eq!(refused(TO_COWD, &image, 1 << 20), (44, 0));
    let mut image = cowd(1 << 31, 8, 1 << 16, 4 + 512);
    put_entries(&mut image, 4, &[0]);
    assert_eq!(refused(TO_KDMV, &image, 1 << 20), (21, 0));
}
