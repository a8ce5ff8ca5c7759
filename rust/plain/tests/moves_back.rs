//! Request A9: each move keeps each sector's kind and bytes, and there and back gives the normal form of the start.

#[path = "common/chance.rs"]
mod chance;
mod common;
#[path = "common/cowd.rs"]
mod cowd;
#[path = "common/moved.rs"]
mod moved;
#[path = "common/served.rs"]
mod served;

use chance::next;
use common::{kdmv, put32, put64, set};
use cowd::cowd;
use moved::{checked, moved, refused, TO_COWD, TO_KDMV};
use plain::{check, header, normal};
use served::served;

/// For each of so many grains nothing, or one of as many places, none of them twice.
fn places(state: &mut u64, grains: u64) -> Vec<Option<u64>> {
    let mut free: Vec<u64> = (0..grains).collect();
    let mut places = Vec::new();
    for _ in 0..grains {
        let taken = next(state, grains) as usize;
        places.push(match next(state, 3) {
            0 => None,
            _ => Some(free.swap_remove(taken % free.len())),
        });
    }
    places
}

fn grains(capacity: u64, grain_size: u64) -> u64 {
    (capacity + grain_size - 1) / grain_size
}

/// Grain size, capacity and grains of a small disk.
fn numbers(state: &mut u64) -> (u64, u64, u64) {
    let grain_size = 8 << next(state, 3);
    let capacity = 1 + next(state, 120);
    (grain_size, capacity, grains(capacity, grain_size))
}

fn fill(state: &mut u64, bytes: &mut [u8]) {
    for byte in bytes {
        *byte = next(state, 256) as u8;
    }
}

/// A small COWD image with grains in any order.
fn scattered_cowd(state: &mut u64) -> Vec<u8> {
    let (grain_size, capacity, grains) = numbers(state);
    let sectors = 37 + (grains * grain_size) as usize;
    let count = 1 + next(state, 128) as u32;
    let mut image = cowd(capacity as u32, grain_size as u32, count, sectors);
    for (grain, place) in places(state, grains).into_iter().enumerate() {
        let entry = place.map_or(0, |place| 37 + place * grain_size);
        put32(&mut image, 5 * 512 + grain * 4, entry as u32);
    }
    fill(state, &mut image[37 * 512..]);
    image
}

/// A small KDMV image without a zero grain, with grains in any order.
fn scattered_kdmv(state: &mut u64) -> Vec<u8> {
    let (grain_size, capacity, grains) = numbers(state);
    let mut image = kdmv(capacity, grain_size, 6 + (grains * grain_size) as usize);
    for (grain, place) in places(state, grains).into_iter().enumerate() {
        let entry = place.map_or(0, |place| 6 + place * grain_size);
        set(&mut image, grain, entry as u32);
    }
    fill(state, &mut image[6 * 512..]);
    image[4] = 1 + next(state, 3) as u8;
    if image[4] == 1 {
        image[8] = 1;
    }
    image
}

/// The numbers of a COWD image's header, from the version on, and of its directory and tables.
fn words(image: &[u8]) -> Vec<u64> {
    let word = |bytes: &[u8]| u32::from_le_bytes(bytes.try_into().unwrap()).into();
    image[4..].chunks(4).map(word).collect()
}

/// That a COWD image of one table is laid out as request A9 says, with the sizes of the KDMV image that it was moved from.
fn assert_cowd_normal(image: &[u8], from: &[u8]) {
    let head = header(from);
    let (words, sectors) = (words(image), image.len() as u64 / 512);
    let expected = [1, 3, head.capacity, head.grain_size, 4, 1, sectors];
    assert_eq!(words[..7], expected);
    assert!(words[7..511].iter().all(|word| *word == 0));
    assert_eq!(words[511], 5);
    assert!(words[512..639].iter().all(|word| *word == 0));
    let grains = grains(head.capacity, head.grain_size) as usize;
    let (entries, unused) = words[639..639 + 4096].split_at(grains);
    assert!(unused.iter().all(|word| *word == 0));
    let mut first = 37;
    for entry in entries.iter().filter(|entry| **entry != 0) {
        assert_eq!(*entry, first);
        first += head.grain_size;
    }
    assert_eq!(first, sectors);
    let short = grains as u64 * head.grain_size - head.capacity;
    if entries[grains - 1] != 0 {
        let past = &image[image.len() - 512 * short as usize..];
        assert!(past.iter().all(|byte| *byte == 0));
    }
}

#[test]
fn from_cowd_and_back() {
    let mut state = 1;
    for _ in 0..200 {
        let start = scattered_cowd(&mut state);
        assert_eq!(checked(&start), (0, 0));
        let there = moved(TO_KDMV, &start);
        assert!(served(&there) == served(&start));
        assert!(normal(&there, 1 << 20) == Ok(there.clone()));
        let back = moved(TO_COWD, &there);
        assert!(served(&back) == served(&start));
        assert_cowd_normal(&back, &there);
        // From here on nothing changes.
        assert!(moved(TO_KDMV, &back) == there);
    }
}

#[test]
fn from_kdmv_and_back() {
    let mut state = 2;
    for _ in 0..200 {
        let start = scattered_kdmv(&mut state);
        assert_eq!(check(&start).number, 0);
        let there = moved(TO_COWD, &start);
        assert!(served(&there) == served(&start));
        assert_cowd_normal(&there, &start);
        let back = moved(TO_KDMV, &there);
        assert!(served(&back) == served(&start));
        assert!(normal(&start, 1 << 20) == Ok(back.clone()));
        assert!(moved(TO_COWD, &back) == there);
    }
}

#[test]
fn over_several_tables() {
    // Three tables of COWD, of which the second is not there, and 17 of KDMV.
    let mut image = cowd(2 * 32768 + 5, 8, 3, 150);
    put32(&mut image, 4 * 512 + 8, 37);
    for (at, entry) in [
        (5 * 512, 142),
        (5 * 512 + 511 * 4, 134),
        (5 * 512 + 512 * 4, 70),
        (5 * 512 + 4095 * 4, 78),
        (37 * 512, 86),
    ] {
        put32(&mut image, at, entry);
    }
    fill(&mut 3, &mut image[70 * 512..]);
    let there = moved(TO_KDMV, &image);
    assert!(served(&there) == served(&image));
    let back = moved(TO_COWD, &there);
    assert!(served(&back) == served(&image));
    assert_eq!(back.len(), 512 * (5 + 3 * 32 + 5 * 8));
    assert!(moved(TO_KDMV, &back) == there);
}

#[test]
fn no_way_back() {
    // What has no COWD can't have come from there: a zero grain.
    let mut image = cowd(24, 8, 1, 45);
    put32(&mut image, 5 * 512, 37);
    let mut there = moved(TO_KDMV, &image);
    set(&mut there, 1, 1);
    assert_eq!(refused(TO_COWD, &there, 1 << 16), (44, 0));
    // What KDMV has beside its grains is lost on the way: a descriptor.
    let mut image = kdmv(24, 8, 8);
    put64(&mut image, 28, 6);
    put64(&mut image, 36, 2);
    let back = moved(TO_KDMV, &moved(TO_COWD, &image));
    assert_eq!(header(&back).descriptor, 0);
    assert_eq!(normal(&image, 1 << 16), Ok(back));
}
