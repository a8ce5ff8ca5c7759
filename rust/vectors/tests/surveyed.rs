//! Request A1 on real images: all samples end to end, surveyed by the proved library.

use anhkhovet::raw::{check, lookup, survey};
use std::fs;
use std::path::Path;

/// The images of `samples/`, in the order of their names.
fn samples() -> Vec<Vec<u8>> {
    let folder = Path::new(env!("CARGO_MANIFEST_DIR")).join("../../samples");
    let entries = fs::read_dir(folder).unwrap();
    let mut paths: Vec<_> = entries.map(|entry| entry.unwrap().path()).collect();
    paths.retain(|path| path.extension().map_or(false, |name| name == "vmdk"));
    paths.sort();
    paths.iter().map(|path| fs::read(path).unwrap()).collect()
}

/// An image's row by its check and by a lookup of each grain's first sector.
fn row(image: &[u8]) -> [u64; 6] {
    let verdict = check(image);
    if verdict.number != 0 {
        return [0, 0, 0, 0, verdict.number, verdict.place];
    }
    let mut counts = [0; 4];
    let mut sector = 0;
    while sector < verdict.capacity {
        counts[lookup(image, sector).kind as usize] += 1;
        sector += verdict.grain_size;
    }
    let [absent, zero, stored, packed] = counts;
    [stored, zero, absent, packed, 0, 0]
}

#[test]
fn rows_are_those_of_check_and_lookups() {
    let images = samples();
    let lengths: Vec<u64> = images.iter().map(|image| image.len() as u64).collect();
    let (mut rows, mut tally) = (vec![7; 6 * images.len()], [7; 63]);
    let totals = survey(&images.concat(), &lengths, &mut rows, &mut tally);
    let expected: Vec<[u64; 6]> = images.iter().map(|image| row(image)).collect();
    assert_eq!(rows, expected.concat());
    let sum = |column: usize| expected.iter().map(|row| row[column]).sum::<u64>();
    let told = [totals.stored, totals.zero, totals.absent, totals.packed];
    assert_eq!(told, [0, 1, 2, 3].map(sum));
    // Each kind of grain is among them, and a refusal: else this would show little.
    assert!([0, 1, 2, 3, 4].into_iter().all(|column| sum(column) > 0));
    for number in 1..=63 {
        let rows = expected.iter().filter(|row| row[4] == number);
        assert_eq!(tally[number as usize - 1], rows.count() as u64, "{number}");
    }
}
