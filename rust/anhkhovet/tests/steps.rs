//! How a lookup comes to its answer: the way on answers and refusals, and the answer, which is the lookup's.

use anhkhovet::{header, lookup, raw, steps, Disk, Refusal, Source, Step, StepsRefusal, Way};
use std::fs;

mod common;

/// The entry at a byte of the file.
fn step(at: u64, entry: u64) -> Option<Step> {
    Some(Step { at, entry })
}

/// A way where an entry of 1 means zeros.
fn way(grain: u64, directory: Option<Step>, table: Option<Step>) -> Way {
    Way {
        one_is_zero: true,
        grain,
        directory,
        table,
    }
}

fn refused(number: u64, place: u64, way: Option<Way>) -> StepsRefusal {
    StepsRefusal {
        refusal: Refusal { number, place },
        way,
    }
}

/// The images of `samples/`, with their names.
fn samples() -> Vec<(String, Vec<u8>)> {
    let entries = fs::read_dir("../../samples").unwrap();
    let paths = entries.map(|entry| entry.unwrap().path());
    let images = paths.filter(|path| path.extension().map_or(false, |name| name == "vmdk"));
    images
        .map(|path| (path.display().to_string(), fs::read(path).unwrap()))
        .collect()
}

/// Both ends of each grain, and the sectors past the disk; of what has no disk, two sectors.
fn sectors(image: &[u8]) -> Vec<u64> {
    let none = Disk {
        capacity: 1,
        grain_size: 1,
    };
    let disk = header(image).map_or(none, |header| header.disk);
    let (capacity, size) = (disk.capacity, disk.grain_size);
    let firsts = (0..).map(|grain| grain * size);
    let within = firsts.take_while(|first| *first < capacity);
    let ends = within.flat_map(|first| [first, (first + size).min(capacity) - 1]);
    ends.chain([capacity, u64::MAX]).collect()
}

#[test]
fn answers_are_the_lookup_s() {
    let (mut served, mut refusals) = (0, 0);
    for (name, image) in samples() {
        for sector in sectors(&image) {
            let source = lookup(&image, sector);
            match steps(&image, sector) {
                Ok(steps) => {
                    assert_eq!(Ok(steps.source), source, "{name} {sector}");
                    follows(&image, sector, steps.way, steps.source);
                    served += 1;
                }
                Err(told) => {
                    assert_eq!(Err(told.refusal), source, "{name} {sector}");
                    assert_eq!(told.way, None, "{name} {sector}");
                    refusals += 1;
                }
            }
        }
    }
    assert!(served > 1000 && refusals > 20, "{served} {refusals}");
}

/// Each entry is what stands at its place, and the last one leads to the source.
fn follows(image: &[u8], sector: u64, way: Way, source: Source) {
    let size = header(image).unwrap().disk.grain_size;
    assert_eq!(way.grain, sector / size);
    let directory = way.directory.unwrap();
    for step in [Some(directory), way.table].into_iter().flatten() {
        let bytes = image[step.at as usize..][..4].try_into().unwrap();
        assert_eq!(step.entry, u64::from(u32::from_le_bytes(bytes)));
    }
    if let Some(table) = way.table {
        assert_eq!(table.at, 512 * directory.entry + 4 * (way.grain % 512));
    }
    let last = way.table.unwrap_or(directory).entry;
    match source {
        Source::Absent => assert_eq!(last, 0),
        Source::Zero => assert!(last == 1 && way.one_is_zero),
        Source::Stored { sector: at } => assert_eq!(at, last + sector % size),
        Source::Packed { sector: at, .. } => assert_eq!(at, last),
    }
}

#[test]
fn the_way_to_an_answer() {
    let mut image = common::image();
    let named = step(512, 2);
    let told = steps(&image, 19).unwrap();
    assert_eq!(told.way, way(2, named, step(1032, 8)));
    assert_eq!(told.source, Source::Stored { sector: 11 });
    let told = steps(&image, 24).unwrap();
    assert_eq!(told.way, way(3, named, step(1036, 1)));
    assert_eq!(told.source, Source::Zero);
    // An entry of 0 is told too: only what was not reached is none.
    assert_eq!(steps(&image, 0).unwrap().way, way(0, named, step(1024, 0)));
    // Without flag 0x4 an entry of 1 is a sector.
    image[8] = 0;
    let told = steps(&image, 25).unwrap();
    assert!(!told.way.one_is_zero);
    assert_eq!(told.source, Source::Stored { sector: 2 });
}

#[test]
fn a_directory_entry_without_a_table() {
    let mut image = common::image();
    for (entry, source) in [(0, Source::Absent), (1, Source::Zero)] {
        image[512] = entry;
        let told = steps(&image, 16).unwrap();
        assert_eq!(told.way, way(2, step(512, entry.into()), None));
        assert_eq!(told.source, source);
    }
}

#[test]
fn refusals_8_9_and_10_tell_how_far_it_came() {
    let mut image = common::image();
    let named = step(512, 2);
    // A grain at 9 has its last sector past the 16 of the file.
    image[1032] = 9;
    let to_grain = way(2, named, step(1032, 9));
    assert_eq!(steps(&image, 16), Err(refused(9, 2, Some(to_grain))));
    // Packed: the marker at 8 is of another grain.
    image[1032] = 8;
    (image[10], image[77]) = (1, 1);
    image[8 * 512..].fill(0);
    image[8 * 512 + 8] = 5;
    let to_marker = way(2, named, step(1032, 8));
    assert_eq!(steps(&image, 16), Err(refused(10, 2, Some(to_marker))));
    image[512] = 13;
    let to_table = way(2, step(512, 13), None);
    assert_eq!(steps(&image, 16), Err(refused(8, 4, Some(to_table))));
    for directory in [0, 16] {
        image[56] = directory;
        let to_directory = way(2, None, None);
        assert_eq!(steps(&image, 16), Err(refused(8, 2, Some(to_directory))));
    }
}

#[test]
fn other_refusals_tell_no_way() {
    let image = common::image();
    assert_eq!(steps(&image, 200), Err(refused(20, 0, None)));
    assert_eq!(steps(&image[..511], 0), Err(refused(1, 0, None)));
    for (number, at, byte) in [
        (2, 0, b'k'),
        (3, 4, 4),
        (4, 8, 5),
        (5, 8, 12),
        (6, 20, 9),
        (20, 12, 16),
    ] {
        let mut image = image.clone();
        image[at] = byte;
        assert_eq!(steps(&image, 16), Err(refused(number, 0, None)));
        let told = raw::steps(&image, 16);
        let nothing = raw::Steps::default();
        assert_eq!(told, raw::Steps { number, ..nothing });
    }
    // The directory is at the end, and there is no footer.
    let mut stream = image.clone();
    (stream[10], stream[77]) = (3, 1);
    stream[56..64].fill(255);
    assert_eq!(steps(&stream, 16), Err(refused(7, 0, None)));
    let mut old = image;
    old[..4].copy_from_slice(b"COWD");
    assert_eq!(steps(&old, 16), Err(refused(43, 0, None)));
}

/// A refusal is told as the lookup's is.
#[test]
fn words() {
    let image = common::image();
    let told = steps(&image, 200).unwrap_err();
    let alone = lookup(&image, 200).unwrap_err();
    assert_eq!(told.to_string(), alone.to_string());
}
