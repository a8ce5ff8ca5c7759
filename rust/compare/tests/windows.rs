//! Files of over 4 GiB, which the check goes over in windows of 8,388,608 sectors: areas that meet only in the second one,
//! and a grain across the boundary. The memory is asked for as zeros, so that only what is touched takes room.
#![cfg(feature = "proved")]

use anhkhovet::raw::{check, check_in, mend};

const WINDOW: u32 = 8_388_608;
const GRAIN: u32 = 128;

/// A disk of four grains in a file that ends in the second window, with the grains at the given sectors.
fn image(grains: [u32; 4]) -> Vec<u8> {
    let mut image = vec![0; 512 * (WINDOW as usize + 2048)];
    let mut put = |at: usize, bytes: &[u8]| image[at..at + bytes.len()].copy_from_slice(bytes);
    put(0, b"KDMV");
    put(4, &1u32.to_le_bytes());
    put(12, &(4 * u64::from(GRAIN)).to_le_bytes());
    put(20, &u64::from(GRAIN).to_le_bytes());
    put(44, &512u32.to_le_bytes());
    put(56, &1u64.to_le_bytes());
    put(512, &2u32.to_le_bytes());
    for (k, sector) in grains.iter().enumerate() {
        put(1024 + 4 * k, &sector.to_le_bytes());
    }
    image
}

/// The number of the check, which in a lent list is the same; the list of ones becomes zeros.
fn refusal(grains: [u32; 4]) -> u64 {
    let image = image(grains);
    let verdict = check(&image);
    assert_eq!(verdict.place, 0);
    let mut list = vec![u64::MAX; image.len() / 512 / 64];
    let found = check_in(&image, &mut list);
    assert_eq!((found.number, found.place), (verdict.number, 0));
    assert!(list.iter().all(|word| *word == 0));
    // Header, directory, table and the grains that are there; the one that meets is the last of them.
    let there = grains.iter().filter(|sector| **sector != 0).count() as u64;
    let meeting = u64::from(verdict.number == 12);
    assert_eq!(found.marked, 6 + (there - meeting) * u64::from(GRAIN));
    verdict.number
}

#[test]
fn areas_that_meet_only_in_the_second_window_are_refused() {
    let first = WINDOW + GRAIN;
    assert_eq!(refusal([128, 0, first, first + GRAIN - 1]), 12);
    assert_eq!(refusal([128, 0, first, first + GRAIN]), 0);
}

#[test]
fn a_grain_across_the_boundary_is_accepted() {
    let across = WINDOW - GRAIN / 2;
    assert_eq!(refusal([128, across, 0, 0]), 0);
}

#[test]
fn a_grain_across_the_boundary_is_marked_on_both_sides() {
    let across = WINDOW - GRAIN / 2;
    assert_eq!(refusal([128, across, across + GRAIN - 1, 0]), 12);
    assert_eq!(refusal([128, across, across + GRAIN, 0]), 0);
    assert_eq!(refusal([128, across, across - GRAIN + 1, 0]), 12);
    assert_eq!(refusal([128, across, across - GRAIN, 0]), 0);
}

#[test]
fn a_lent_list_has_a_word_for_every_64_sectors_of_both_windows() {
    let image = image([128, WINDOW, 0, 0]);
    let words = WINDOW as usize / 64 + 31;
    for (sectors, needed) in [(1984, words), (1985, words + 1), (2048, words + 1)] {
        let image = &image[..512 * (WINDOW as usize + sectors)];
        let mut list = vec![7; needed + 1];
        assert_eq!(check_in(image, &mut list[..needed - 1]).number, 21);
        assert!(list.iter().all(|word| *word == 7), "{sectors}");
        let found = check_in(image, &mut list);
        assert_eq!((found.number, found.marked), (0, 6 + 256), "{sectors}");
        assert!(list[..needed].iter().all(|word| *word == 0), "{sectors}");
        assert_eq!(list[needed], 7);
    }
}

#[test]
fn the_last_sector_of_a_window_and_the_first_of_the_next_are_two() {
    assert_eq!(refusal([WINDOW - GRAIN, WINDOW, 0, 0]), 0);
}

/// A redundant directory at sector 6, whose table from 7 on has the first grain alone.
#[test]
fn mending_looks_at_both_windows() {
    let first = WINDOW + GRAIN;
    for (last, number) in [(first + GRAIN - 1, 40), (first + GRAIN, 0)] {
        let mut image = image([128, 0, first, last]);
        for (at, number) in [(48, 6), (6 * 512, 7), (7 * 512, 128)] {
            image[at] = number;
        }
        let mut list = [7; 7];
        assert_eq!(mend(&mut image, 0, &mut list).number, number);
        let (grain, new) = (7 * 512 + 8, u64::from(first));
        if number == 0 {
            assert_eq!(list, [2, 0, new, 3, 0, new + u64::from(GRAIN), 7]);
            assert_eq!(image[grain..grain + 4], first.to_le_bytes());
            assert_eq!(check(&image).number, 0);
        } else {
            assert_eq!((list, &image[grain..grain + 4]), ([7; 7], &[0; 4][..]));
        }
    }
}
