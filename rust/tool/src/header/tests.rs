//! What is marked is what the library refuses, over headers with damage of every kind.

use super::*;
use std::collections::BTreeMap;
use std::fs;

/// A row of numbers that depends on its seed alone.
struct Numbers(u64);

impl Numbers {
    fn next(&mut self, below: u64) -> u64 {
        self.0 ^= self.0 << 13;
        self.0 ^= self.0 >> 7;
        self.0 ^= self.0 << 17;
        self.0 % below
    }
}

fn sample(name: &str) -> Vec<u8> {
    let samples = Path::new(env!("CARGO_MANIFEST_DIR")).join("../../samples");
    fs::read(samples.join(name)).expect("a sample")
}

/// Both sides of the edges of the rules, each with the field that it is for and its size.
const EDGES: [(usize, usize, &[u64]); 9] = [
    (4, 4, &[0, 1, 2, 3, 4, 1 << 31]),
    (
        8,
        4,
        &[
            0, 1, 2, 3, 4, 5, 7, 8, 0x10000, 0x10001, 0x20001, 0x30001, 0x30005, 0x40001,
        ],
    ),
    (12, 8, &[0, 1, 1 << 31, (1 << 31) + 1, 1 << 63]),
    (20, 8, &[0, 4, 8, 12, 128, 2048, 4096, 1 << 40]),
    (44, 4, &[0, 511, 512, 513, 1024]),
    (48, 8, &[0, 1, u64::MAX]),
    (56, 8, &[0, 1, u64::MAX - 1, u64::MAX]),
    (73, 4, &[0x0a0d_200a, 0x0a0a_200a, 0]),
    (77, 2, &[0, 1, 2, 256]),
];

/// A sample with up to three numbers changed, and perhaps a byte of its two last sectors or its length.
fn damaged(base: &[u8], any: &mut Numbers) -> Vec<u8> {
    let mut image = base.to_vec();
    let sectors = image.len() / 512;
    for _ in 0..any.next(4) {
        let (at, size, values) = EDGES[any.next(EDGES.len() as u64) as usize];
        let value = values[any.next(values.len() as u64) as usize].to_le_bytes();
        image[at..at + size].copy_from_slice(&value[..size]);
        if any.next(2) == 0 {
            // The footer is as the header but for the directory's sector.
            let header = image[..56].to_vec();
            image[512 * (sectors - 2)..][..56].copy_from_slice(&header);
        }
    }
    match any.next(8) {
        0 => image[512 * (sectors - 2) + any.next(1024) as usize] ^= 1,
        1 => image[512 * (sectors - 2) + 56..][..8].fill(0xff),
        2 => image.truncate(any.next(4 * 512) as usize),
        3 => image.truncate(image.len() - any.next(1024) as usize),
        4 => image[any.next(4) as usize] ^= 1,
        _ => {}
    }
    image
}

#[test]
fn the_first_rule_that_is_marked_is_the_librarys() {
    let bases = [
        "tool-base.vmdk",
        "tool-middle.vmdk",
        "tool-packed.vmdk",
        "vmdkstream.vmdk",
        "cowd-s001.vmdk",
    ];
    let bases = bases.map(sample);
    let mut any = Numbers(29);
    let mut met: BTreeMap<u64, u64> = BTreeMap::new();
    for case in 0..20_000 {
        let image = damaged(&bases[case % bases.len()], &mut any);
        let told = Told::of(&image);
        let number = told.verdict.map_or_else(|refusal| refusal.number, |()| 0);
        assert_eq!(
            told.broken().first().copied().unwrap_or(0),
            number,
            "case {case}:\n{}",
            told.lines()
        );
        *met.entry(number).or_default() += 1;
    }
    let reached = (0..=7)
        .chain([COWD_GONE])
        .all(|number| met.get(&number) > Some(&100));
    assert!(reached, "{met:?}");
}

#[test]
fn a_field_is_told_in_the_files_bytes() {
    let image = sample("tool-base.vmdk");
    let told = Told::of(&image);
    for row in &told.rows[1..] {
        let at = row.at.expect("a place") as usize;
        assert_eq!(row.bytes, image[at..at + row.bytes.len()], "{}", row.name);
    }
    let fields = told.rows[1..].iter().map(|row| row.bytes.len());
    assert_eq!(fields.sum::<usize>(), 512);
}
