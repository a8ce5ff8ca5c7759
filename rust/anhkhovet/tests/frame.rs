//! The frame's list: each group, its room on both sides of the edge, and what is kept.

use anhkhovet::{frame, raw, Area, Group, Refusal};
use std::fs;

fn sample(name: &str) -> Vec<u8> {
    fs::read(format!("../../samples/{name}.vmdk")).unwrap()
}

fn areas(list: &[(Group, u64, u64)]) -> Result<Vec<Area>, Refusal> {
    let area = |&(group, first, sectors)| Area {
        group,
        first,
        sectors,
    };
    Ok(list.iter().map(area).collect())
}

#[test]
fn groups() {
    let copies = [
        (Group::Header, 0, 1),
        (Group::Descriptor, 1, 20),
        (Group::Directory, 26, 1),
        (Group::RedundantDirectory, 21, 1),
        (Group::PrimaryTable, 27, 4),
        (Group::RedundantTable, 22, 4),
    ];
    assert_eq!(frame(&sample("tool-base")), areas(&copies));
    let ends = [
        (Group::Header, 0, 1),
        (Group::Descriptor, 1, 1),
        (Group::Directory, 141, 1),
        (Group::PrimaryTable, 136, 4),
        (Group::Footer, 143, 1),
        (Group::LastSector, 144, 1),
    ];
    assert_eq!(frame(&sample("vmdkstream")), areas(&ends));
}

/// A directory that names one table many times: the frame does not judge that.
fn many(tables: usize) -> Vec<u8> {
    let mut image = vec![0; 512 * 16];
    let mut put = |at: usize, bytes: &[u8]| image[at..at + bytes.len()].copy_from_slice(bytes);
    put(0, b"KDMV");
    put(4, &1u32.to_le_bytes());
    put(12, &(tables as u64 * 4096).to_le_bytes());
    put(20, &8u64.to_le_bytes());
    put(44, &512u32.to_le_bytes());
    put(56, &1u64.to_le_bytes());
    for entry in 0..tables {
        put(512 + 4 * entry, &12u32.to_le_bytes());
    }
    image
}

/// The list grows as far as it has to: 64 areas fit in the first one, 65 and 1,000 do not.
#[test]
fn room() {
    for count in [3, 64, 65, 128, 129, 1000] {
        let listed = frame(&many(count - 2)).unwrap();
        assert_eq!(listed.len(), count);
        assert_eq!(listed[count - 1].group, Group::PrimaryTable);
    }
}

#[test]
fn lists_of_the_caller() {
    let image = many(1);
    let mut list = [9; 10];
    let short = raw::frame(&image, &mut list[..8]);
    assert_eq!((short.number, short.count, list), (21, 0, [9; 10]));
    let whole = raw::frame(&image, &mut list);
    assert_eq!((whole.number, whole.place, whole.count), (0, 0, 3));
    assert_eq!(list, [1, 0, 1, 3, 1, 1, 5, 12, 4, 9]);
}

#[test]
fn refusals() {
    let refused = |number, place| Err(Refusal { number, place });
    assert_eq!(frame(&[]), refused(1, 0));
    assert_eq!(frame(&many(0)), refused(6, 0));
    assert_eq!(frame(&many(3)[..512 * 15]), refused(8, 4));
    // A grain past the end is the check's to refuse.
    let mut grain = many(3);
    grain[512 * 12] = 200;
    assert_eq!(frame(&grain).map(|areas| areas.len()), Ok(5));
    assert_eq!(
        anhkhovet::check(&grain).map_err(|refusal| refusal.number),
        Err(9)
    );
}
