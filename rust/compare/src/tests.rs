//! The generators: sound inputs are accepted and say what they were made to say, whatever stands in unused places.

use crate::disks::Disk;
use crate::image::{build, meet, suited, unused, Built, Cell, Plan, Shape, What};
use crate::rng::Rng;
use crate::text;
use plain::{
    check, check_in, collapse, descriptor, frame, header, lookup, normal, read, split, survey,
    Extent, Located, ABSENT, PACKED, STORED, ZERO,
};
use std::collections::BTreeSet;

fn sound(rng: &mut Rng, plan: Plan) -> Built {
    let shape = Shape::choose(rng, plan);
    build(rng, shape)
}

fn any(most_sectors: u64) -> Plan {
    Plan {
        most_sectors,
        ..Plan::default()
    }
}

#[test]
fn sound_images_are_accepted() {
    let (mut sizes, mut heads) = (BTreeSet::new(), BTreeSet::new());
    for case in 0..3000 {
        let rng = &mut Rng::new(5, case);
        let mut built = sound(rng, suited(any(2100), case));
        let verdict = check(&built.bytes);
        let shape = &built.shape;
        let expected = (0, shape.capacity, shape.grain_size);
        let found = (verdict.number, verdict.capacity, verdict.grain_size);
        assert_eq!(found, expected, "{case}: {shape:?}");
        for area in &built.areas {
            if matches!(area.what, What::Grain(_)) {
                sizes.insert((shape.packed, shape.grain_size));
            }
        }
        heads.insert((shape.version, shape.flags & 0x4));
        unused(rng, &mut built);
        assert_eq!(check(&built.bytes), verdict, "{case}: {:?}", built.shape);
    }
    // 9 sizes, stored and packed.
    assert_eq!(sizes.len(), 9 + 9, "{sizes:?}");
    // Flag 0x4, or not, in each version but the first.
    assert!(heads.iter().eq(&[(1, 0), (2, 0), (2, 4), (3, 0), (3, 4)]));
}

#[test]
fn lookups_find_what_was_built() {
    for case in 0..600 {
        let rng = &mut Rng::new(6, case);
        let built = sound(rng, any(600));
        let shape = &built.shape;
        let per_table = shape.per_table();
        for grain in 0..shape.grains().min(3 * per_table) {
            let sector = grain * shape.grain_size;
            let located = lookup(&built.bytes, sector);
            let index = grain / per_table;
            let kind = match shape.tables.get(&index) {
                None if shape.is_one(index) => ZERO,
                None => ABSENT,
                Some(cells) => match cells.get(&(grain % per_table)) {
                    None => ABSENT,
                    Some(Cell::Zero) => ZERO,
                    Some(Cell::Stored) => STORED,
                    Some(Cell::Packed(_)) => PACKED,
                },
            };
            assert_eq!((located.number, located.kind), (0, kind), "{case} {grain}");
            let place = built
                .areas
                .iter()
                .find(|area| area.what == What::Grain(grain));
            assert_eq!(located.sector, place.map_or(0, |area| area.first), "{case}");
        }
    }
}

/// An area's group and, inside the group, its directory entry; a grain has none.
fn group(what: What) -> Option<(u64, u64)> {
    match what {
        What::Header => Some((1, 0)),
        What::Descriptor => Some((2, 0)),
        What::Directory => Some((3, 0)),
        What::Redundant => Some((4, 0)),
        What::Table(index) => Some((5, index)),
        What::Copy(index) => Some((6, index)),
        What::Footer => Some((7, 0)),
        What::Last => Some((8, 0)),
        What::Grain(_) => None,
    }
}

#[test]
fn frames_have_what_was_built() {
    let mut groups = BTreeSet::new();
    for case in 0..600 {
        let rng = &mut Rng::new(9, case);
        let mut built = sound(rng, suited(any(100), case));
        built.areas.sort_by_key(|area| group(area.what));
        let mut expected = Vec::new();
        for area in &built.areas {
            if let Some((group, _)) = group(area.what) {
                expected.extend([group, area.first, area.sectors]);
                groups.insert(group);
            }
        }
        let mut list = vec![0; expected.len()];
        let framed = frame(&built.bytes, &mut list);
        assert_eq!(framed.number, 0, "{case}");
        assert_eq!(list, expected, "{case}: {:?}", built.shape);
    }
    assert_eq!(groups.len(), 8, "{groups:?}");
}

#[test]
fn checks_in_a_list_mark_what_was_built() {
    let mut met = 0;
    for case in 0..700 {
        let rng = &mut Rng::new(13, case);
        let mut built = sound(rng, suited(any(100), case));
        let sum: u64 = built.areas.iter().map(|area| area.sectors).sum();
        let mut list = vec![u64::MAX; (built.sectors() as usize + 63) / 64];
        let found = check_in(&built.bytes, &mut list);
        assert_eq!((found.number, found.marked), (0, sum), "{case}");
        assert!(list.iter().all(|word| *word == 0), "{case}");
        meet(rng, &mut built);
        let found = check_in(&built.bytes, &mut list);
        assert!(found.marked <= built.sectors(), "{case}: {found:?}");
        met += u64::from(found.number == 12);
    }
    assert!(met > 200, "{met}");
}

#[test]
fn surveys_count_what_was_built() {
    for case in 0..600 {
        let rng = &mut Rng::new(10, case);
        let built = sound(rng, suited(any(100), case));
        let shape = &built.shape;
        let mut counts = [0; 4];
        for index in 0..shape.entries() {
            let grains = shape.grains_of(index);
            let cells = match shape.tables.get(&index) {
                None => {
                    counts[if shape.is_one(index) { 1 } else { 2 }] += grains;
                    continue;
                }
                Some(cells) => cells,
            };
            counts[2] += grains - cells.len() as u64;
            for cell in cells.values() {
                counts[match cell {
                    Cell::Stored => 0,
                    Cell::Zero => 1,
                    Cell::Packed(_) => 3,
                }] += 1;
            }
        }
        let (mut row, mut tally) = ([7; 6], [7; 63]);
        let lengths = [built.bytes.len() as u64];
        survey(&built.bytes, &lengths, &mut row, &mut tally);
        assert_eq!(row[..4], counts, "{case}: {shape:?}");
        assert_eq!((&row[4..], tally), (&[0, 0][..], [0; 63]), "{case}");
    }
}

/// The bytes of a sector, or whether it is absent or zero.
fn content(image: &[u8], sector: u64) -> (u64, Vec<u8>) {
    let part = read(image, sector);
    let from = part.at as usize;
    let bytes = image[from..from + part.length as usize].to_vec();
    (lookup(image, sector).kind, bytes)
}

#[test]
fn collapse_keeps_sectors_and_pairs_in_any_way() {
    let most = usize::MAX;
    for case in 0..300 {
        let rng = &mut Rng::new(7, case);
        let grain_size = 8 << rng.below(3);
        let plan = Plan {
            packed: Some(false),
            size: Some((rng.within(1, 700 * grain_size), grain_size)),
            clean: true,
            ..any(100)
        };
        let made: Vec<Built> = (0..3).map(|_| sound(rng, plan)).collect();
        let [a, b, c] = [0, 1, 2].map(|layer: usize| &made[layer].bytes[..]);
        let ab = collapse(a, b, most).unwrap();
        let bc = collapse(b, c, most).unwrap();
        assert_eq!(collapse(&ab, c, most), collapse(a, &bc, most), "{case}");
        assert_eq!(check(&ab).number, 0, "{case}");
        assert_eq!(header(&ab).dirty, 0, "{case}");
        let normal_a = normal(a, most).unwrap();
        assert_eq!(collapse(a, a, most).unwrap(), normal_a, "{case}");
        assert_eq!(normal(&normal_a, most).unwrap(), normal_a, "{case}");
        let capacity = made[0].shape.capacity;
        for sector in (0..capacity).filter(|sector| *sector < 64 || rng.one_in(20)) {
            assert_eq!(content(a, sector), content(&normal_a, sector), "{case}");
            let upper = content(b, sector);
            let expected = if upper.0 == ABSENT {
                content(a, sector)
            } else {
                upper
            };
            assert_eq!(content(&ab, sector), expected, "{case} {sector}");
        }
    }
}

#[test]
fn sound_texts_are_described() {
    for case in 0..3000 {
        let rng = &mut Rng::new(8, case);
        let text = text::sound(rng).bytes();
        let (described, list) = descriptor(&text, 32);
        let shown = || String::from_utf8_lossy(&text).into_owned();
        assert_eq!(described.number, 0, "{case}: {}", shown());
        for extent in list {
            let at = extent.name_at as usize;
            let quotes = [at.wrapping_sub(1), at + extent.name_length as usize];
            let quoted = quotes.iter().all(|at| text.get(*at) == Some(&b'"'));
            assert!(extent.kind == 5 || quoted, "{case}: {}", shown());
        }
    }
}

/// The answer of a file by itself: an image's, plain sectors', or zeros.
fn expected(extent: &Extent, file: &[u8], inside: u64) -> Located {
    match extent.kind {
        3 => lookup(file, inside),
        5 => Located {
            kind: ZERO,
            ..Located::default()
        },
        _ => Located {
            kind: STORED,
            sector: extent.offset + inside,
            ..Located::default()
        },
    }
}

#[test]
fn disks_serve_what_was_built() {
    let (mut kinds, mut counts, mut sums) = (BTreeSet::new(), BTreeSet::new(), BTreeSet::new());
    for case in 0..600 {
        let rng = &mut Rng::new(11, case);
        let disk = Disk::choose(rng, case);
        let text = disk.text.bytes();
        let (described, list) = descriptor(&text, 32);
        let shape = (described.number, list.len());
        assert_eq!(shape, (0, disk.lengths.len()), "{case}");
        counts.insert(list.len());
        let sum: u64 = list.iter().map(|extent| extent.sectors).sum();
        sums.insert(sum);
        for sector in disk.asked {
            let located = split(&text, &disk.files, &disk.lengths, sector);
            assert_eq!(located.number == 20, sector >= sum, "{case} {sector}");
            if located.number == 20 {
                continue;
            }
            let layer = located.layer as usize;
            let from: u64 = disk.lengths[..layer].iter().sum();
            let file = &disk.files[from as usize..(from + disk.lengths[layer]) as usize];
            let extent = &list[layer];
            kinds.insert((extent.kind, extent.access, located.number == 0));
            if located.number == 0 {
                let expected = expected(extent, file, sector - extent.first);
                let layer = located.layer;
                assert_eq!(located, Located { layer, ..expected }, "{case}");
            }
        }
    }
    // Four types, served and refused with two accesses, and refused with the third; COWD's, refused with all three.
    assert_eq!(kinds.len(), 4 * (2 + 2 + 1) + 3, "{kinds:?}");
    assert!(counts.iter().eq(&[1, 2, 3, 4, 5, 6, 32]), "{counts:?}");
    assert_eq!(sums.last(), Some(&(1 << 31)));
}
