//! Refusal 8 with its part: the lowest that applies, the same by every call, and its words.

use anhkhovet::{
    chain, check, check_in, collapse, frame, lookup, mend, normal, read, split, survey,
    ChainRefusal, Counted, MisplacedPart, Refusal, Side, Source, SplitRefusal,
};
use MisplacedPart::*;

/// In the order of their places.
const PARTS: [MisplacedPart; 5] = [
    Descriptor,
    Directory,
    RedundantDirectory,
    PrimaryTable,
    RedundantTable,
];

fn refused(place: u64) -> Refusal {
    Refusal { number: 8, place }
}

/// Capacity 16 and grain size 8 in twelve sectors: header, descriptor, both directories, and a table of either, with a zero
/// grain and an absent one. The parts with these places end a sector past the file.
fn outside(places: &[u64]) -> Vec<u8> {
    let mut image = vec![0; 12 * 512];
    let mut put = |at: usize, number: u8| image[at] = number;
    for (at, byte) in (0..).zip(*b"KDMV") {
        put(at, byte);
    }
    let number = |place: u64, sound: u8, past: u8| {
        if places.contains(&place) {
            past
        } else {
            sound
        }
    };
    for (at, byte) in [(4, 2), (8, 4), (12, 16), (20, 8), (36, 1), (45, 2)] {
        put(at, byte);
    }
    put(28, number(1, 1, 12));
    put(56, number(2, 2, 12));
    put(48, number(3, 3, 12));
    put(2 * 512, number(4, 4, 9));
    put(3 * 512, number(5, 8, 9));
    put(4 * 512, 1);
    put(8 * 512, 1);
    image
}

/// All five, and then mended one after the other, with the part that is named.
fn steps() -> impl Iterator<Item = (Vec<u8>, u64)> {
    (1..=5).map(|first| (outside(&(first..=5).collect::<Vec<_>>()), first))
}

#[test]
fn mended_one_after_the_other() {
    for (image, place) in steps() {
        let named = check(&image).unwrap_err();
        assert_eq!(named, refused(place));
        assert_eq!(named.part(), Some(PARTS[place as usize - 1]));
        assert_eq!(frame(&image), Err(named));
        assert_eq!(normal(&image, &mut []), Err(named));
        let mut list = [7; 3];
        let marked = check_in(&image, &mut list).unwrap_err();
        assert_eq!((marked.refusal, marked.marked, list), (named, 0, [7; 3]));
        for good in [Side::Primary, Side::Redundant] {
            let mut after = image.clone();
            assert_eq!(mend(&mut after, good, &mut list), Err(named));
            assert!(after == image && list == [7; 3]);
        }
    }
    assert_eq!(check(&outside(&[])).map(|disk| disk.capacity), Ok(16));
}

#[test]
fn the_lowest_of_any() {
    for bits in 1..32_u64 {
        let places: Vec<u64> = (1..=5)
            .filter(|place| bits >> (place - 1) & 1 == 1)
            .collect();
        let image = outside(&places);
        assert_eq!(check(&image), Err(refused(places[0])), "{places:?}");
        let found = match (places.contains(&2), places.contains(&4)) {
            (true, _) => Err(refused(2)),
            (_, true) => Err(refused(4)),
            _ => Ok(Source::Zero),
        };
        assert_eq!(lookup(&image, 0), found, "{places:?}");
        assert!(read(&image, 0).is_empty());
    }
}

/// One of its numbers zero is the descriptor's fault, sector 0 the directory's.
#[test]
fn zeros() {
    for at in [28, 36] {
        let mut image = outside(&[2]);
        image[at] = 0;
        image[56] = 0;
        assert_eq!(check(&image), Err(refused(1)));
        assert_eq!(lookup(&image, 0), Err(refused(2)));
    }
    let mut image = outside(&[]);
    image[28] = 0;
    image[36] = 0;
    assert!(check(&image).is_ok());
    image[56] = 0;
    assert_eq!(check(&image), Err(refused(2)));
}

#[test]
fn handed_on() {
    let whole = outside(&[]);
    let length = whole.len() as u64;
    for (image, place) in steps() {
        let named = Err(refused(place));
        assert_eq!(collapse(&image, &whole, &mut []), named);
        assert_eq!(collapse(&whole, &image, &mut []), named);
        assert_eq!(collapse(&image, &outside(&[1]), &mut []), named);
        let files = [&whole[..], &image].concat();
        let said = survey(&files, &[length; 2]).unwrap();
        assert_eq!(said.rows[1], Err(refused(place)));
        assert_eq!((said.tally[0].number, said.tally[0].images), (8, 1));
        let text = "# Disk DescriptorFile\nversion=1\nCID=1\nparentCID=1\ncreateType=\"x\"\n\
                    RW 16 SPARSE \"a\"\nRW 16 SPARSE \"b\"\n";
        let refusal = refused(place);
        let expected = SplitRefusal { refusal, extent: 1 };
        assert_eq!(
            split(text.as_bytes(), &files, &[length; 2], 16),
            Err(expected)
        );
    }
}

/// The layer that is met, and the lookup's part there.
#[test]
fn chains() {
    let whole = outside(&[]);
    let lengths = [whole.len() as u64; 2];
    for (place, part) in [(2, "the directory"), (4, "a primary table")] {
        let image = outside(&[place]);
        let refusal = refused(place);
        let above = [&whole[..], &image].concat();
        let told = chain(&above, &lengths, 0).unwrap_err();
        assert_eq!(told, ChainRefusal { refusal, layer: 1 });
        let words = told.to_string();
        let start = format!("layer 1: refused 8: {part} does not lie inside the file");
        assert!(words.starts_with(&start), "{words}");
        // The first grain is zero above, the second absent.
        let below = [&image[..], &whole].concat();
        assert!(chain(&below, &lengths, 0).is_ok());
        let expected = ChainRefusal { refusal, layer: 0 };
        assert_eq!(chain(&below, &lengths, 8), Err(expected));
    }
    let others = outside(&[1, 3, 5]).repeat(2);
    assert!(chain(&others, &lengths, 8).is_ok());
}

#[test]
fn words() {
    for (place, part) in (1..).zip(PARTS) {
        let refusal = refused(place);
        assert_eq!(refusal.counted(), Counted::Part(part));
        assert_eq!(refusal.to_string(), format!("refused 8: {}", part.words()));
        let nine = Refusal { number: 9, place };
        assert_eq!((nine.part(), nine.counted()), (None, Counted::Grain));
    }
    assert_eq!(
        PARTS.map(MisplacedPart::words),
        [
            "the descriptor does not lie inside the file, or only one of its two numbers is zero",
            "the directory does not lie inside the file, or its sector is 0",
            "the redundant directory does not lie inside the file",
            "a primary table does not lie inside the file",
            "a redundant table does not lie inside the file",
        ]
    );
    // No call gives these.
    for place in [0, 6, u64::MAX] {
        let refusal = refused(place);
        assert_eq!(
            (refusal.part(), refusal.counted()),
            (None, Counted::Nothing)
        );
        assert_eq!(
            refusal.sentence(),
            "the descriptor, a directory or a table does not lie inside the file"
        );
    }
}
