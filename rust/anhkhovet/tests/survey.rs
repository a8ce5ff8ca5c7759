//! The survey: each kind in its place, refused images, the lengths, and the lists on both sides of their edge.

mod common;

use anhkhovet::{check, lookup, raw, survey, Counts, Refusal, Source, Tallied};
use common::image;
use std::fs;

fn refused(number: u64, place: u64) -> Refusal {
    Refusal { number, place }
}

/// The lengths of images, and all of them end to end.
fn end_to_end(images: &[Vec<u8>]) -> (Vec<u8>, Vec<u64>) {
    let lengths = images.iter().map(|image| image.len() as u64).collect();
    (images.concat(), lengths)
}

/// The small image has 25 grains.
const SMALL: Counts = Counts {
    stored: 1,
    zero: 1,
    absent: 23,
    packed: 0,
};

/// One that the check accepts, one whose grain runs past the end, no bytes at all, another magic, and the first once more.
fn five() -> Vec<Vec<u8>> {
    let mut cut = image();
    cut.truncate(16 * 512 - 1);
    vec![image(), cut, Vec::new(), b"KDMW".to_vec(), image()]
}

#[test]
fn rows_totals_and_tally() {
    let (images, lengths) = end_to_end(&five());
    let said = survey(&images, &lengths).unwrap();
    let rows = [
        Ok(SMALL),
        Err(refused(9, 2)),
        Err(refused(1, 0)),
        Err(refused(2, 0)),
        Ok(SMALL),
    ];
    assert_eq!(said.rows, rows);
    let totals = Counts {
        stored: 2,
        zero: 2,
        absent: 46,
        packed: 0,
    };
    assert_eq!((said.totals, said.totals.grains()), (totals, 50));
    let tally = [1, 2, 9].map(|number| Tallied { number, images: 1 });
    assert_eq!(said.tally, tally);
}

/// Every kind, as the lookup has it, grain by grain.
#[test]
fn kinds() {
    let names = [
        "tool-base",
        "tool-packed",
        "vmdkstream",
        "zeroed-grain-data",
    ];
    let mut all = Counts::default();
    for name in names {
        let image = fs::read(format!("../../samples/{name}.vmdk")).unwrap();
        let said = survey(&image, &[image.len() as u64]).unwrap();
        let disk = check(&image).unwrap();
        let mut counts = Counts::default();
        for sector in (0..disk.capacity).step_by(disk.grain_size as usize) {
            *match lookup(&image, sector).unwrap() {
                Source::Absent => &mut counts.absent,
                Source::Zero => &mut counts.zero,
                Source::Stored { .. } => &mut counts.stored,
                Source::Packed { .. } => &mut counts.packed,
            } += 1;
        }
        assert_eq!((&said.rows, said.totals), (&vec![Ok(counts)], counts));
        all.stored += counts.stored;
        all.zero += counts.zero;
        all.absent += counts.absent;
        all.packed += counts.packed;
    }
    assert!(all.stored > 0 && all.zero > 0 && all.absent > 0 && all.packed > 0);
}

#[test]
fn lengths() {
    let length = image().len() as u64;
    let images = image().repeat(1024);
    assert_eq!(survey(&images, &[length; 1024]).unwrap().rows.len(), 1024);
    let wrong = Err(refused(24, 0));
    assert_eq!(survey(&[], &[]), wrong);
    assert_eq!(survey(&[], &[0; 1025]), wrong);
    assert_eq!(survey(&images, &[length; 1023]), wrong);
    // A sum that is right only if it wraps.
    assert_eq!(survey(&image(), &[length + 1, u64::MAX]), wrong);
}

#[test]
fn lists_of_the_caller() {
    let (images, lengths) = end_to_end(&five());
    let (mut rows, mut tally) = ([7; 31], [7; 64]);
    for (rows_length, tally_length) in [(29, 64), (31, 62)] {
        let (rows, tally) = (&mut rows[..rows_length], &mut tally[..tally_length]);
        let short = raw::survey(&images, &lengths, rows, tally);
        let expected = raw::Surveyed {
            number: 21,
            ..raw::Surveyed::default()
        };
        assert_eq!(short, expected);
    }
    assert_eq!((rows, tally), ([7; 31], [7; 64]));

    let whole = raw::survey(&images, &lengths, &mut rows, &mut tally);
    let expected = raw::Surveyed {
        stored: 2,
        zero: 2,
        absent: 46,
        ..raw::Surveyed::default()
    };
    assert_eq!(whole, expected);
    assert_eq!(rows[..12], [1, 1, 23, 0, 0, 0, 0, 0, 0, 0, 9, 2]);
    assert_eq!((rows[16], rows[22], rows[30]), (1, 2, 7));
    let numbers = [0, 1, 8];
    for (word, count) in tally[..63].iter().enumerate() {
        assert_eq!(*count, u64::from(numbers.contains(&word)));
    }
    assert_eq!(tally[63], 7);
}
