//! Two accepted images with areas enough to move one onto another, and the sums of their sizes.

use super::common::{kdmv, put32, put64, set};
use super::parts::{pack, put_entries, put_footer};

/// What the first table of either directory of `furnished` starts with, and the second.
pub const FIRST: &[u32] = &[58, 0, 66];
pub const SECOND: &[u32] = &[0, 0, 0, 50];

/// 74 sectors. Sizes added up area by area, with the sectors where each stands:
///
/// |  1 | header 0          | 10 | primary table 10   | 30 | grain 0 at 58   |
/// |  4 | descriptor 1 to 3 | 14 | primary table 20   | 38 | grain 2 at 66   |
/// |  5 | directory 4       | 18 | redundant table 30 | 46 | grain 515 at 50 |
/// |  6 | its copy 5        | 22 | redundant table 40 |    |                 |
///
/// Of the second table's entries four are in use, so all but its first sector may hold anything.
pub fn furnished() -> Vec<u8> {
    let mut image = kdmv(4096 + 25, 8, 74);
    put64(&mut image, 28, 1);
    put64(&mut image, 36, 3);
    put64(&mut image, 48, 5);
    put64(&mut image, 56, 4);
    put_entries(&mut image, 4, &[10, 20]);
    put_entries(&mut image, 5, &[30, 40]);
    for (first, second) in [(10, 20), (30, 40)] {
        put_entries(&mut image, first, FIRST);
        put_entries(&mut image, second, SECOND);
    }
    image
}

/// `furnished` with other entries at the start of a few sectors.
pub fn with(changes: &[(usize, &[u32])]) -> Vec<u8> {
    let mut image = furnished();
    for (at, entries) in changes {
        put_entries(&mut image, *at, entries);
    }
    image
}

/// 70 sectors, with a footer and packed grains:
///
/// |  1 | header 0    |  7 | footer 68      | 10 | grain 0 at 6 and 7    |
/// |  2 | directory 1 |  8 | last sector 69 | 11 | grain 2 at 9          |
/// |  6 | table 2     |    |                | 15 | grain 4 from 62 to 65 |
pub fn closed() -> Vec<u8> {
    let mut image = kdmv(33, 8, 70);
    pack(&mut image);
    for (grain, at, sectors) in [(0, 6, 2), (2, 9, 1), (4, 62, 4)] {
        put_packed(&mut image, grain, at, sectors);
    }
    put_footer(&mut image, 1);
    image
}

/// Gives `closed` a grain of so many sectors, all of which it fills.
pub fn put_packed(image: &mut [u8], grain: usize, at: usize, sectors: u32) {
    set(image, grain, at as u32);
    put64(image, at * 512, 8 * grain as u64);
    put32(image, at * 512 + 8, 512 * sectors - 12);
}
