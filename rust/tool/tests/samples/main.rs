//! The samples: every sector of each is looked up and read through the proved library, and compared with what qemu-img said
//! and read (samples/make stores it).

mod dirty;
mod disk;
mod map;
mod raw;
mod versions;

use anhkhovet::{
    check, collapse, descriptor, find, frame, header, lookup, normal, to_kdmv, Group, Located,
    Refusal, Source, SECTOR,
};
use disk::{bytes, path, text, Extent, Reader};
use map::{runs, Run};
use raw::Raw;

fn refused<T>(number: u64) -> Result<T, Refusal> {
    Err(Refusal { number, place: 0 })
}

/// The number of a source's kind: absent, zero, stored, packed.
fn kind(source: Source) -> usize {
    match source {
        Source::Absent => 0,
        Source::Zero => 1,
        Source::Stored { .. } => 2,
        Source::Packed { .. } => 3,
    }
}

/// The extents of a disk whose descriptor is a file of its own.
fn described(name: &str) -> Vec<Extent> {
    let text = bytes(&format!("{name}.vmdk"));
    let records = descriptor(&text).unwrap().extents;
    let mut extents = Vec::new();
    for (number, record) in records.iter().enumerate() {
        let file = text[record.name.clone()].to_vec();
        let extent = Extent::new(&[String::from_utf8(file).unwrap()]);
        assert_eq!(extent.sectors, record.sectors, "{name}");
        for sector in [record.first, record.first + record.sectors - 1] {
            assert_eq!(find(&records, sector), Ok(number), "{name}");
        }
        extents.push(extent);
    }
    let end = extents.iter().map(|extent| extent.sectors).sum();
    assert_eq!(find(&records, end), refused(20), "{name}");
    extents
}

/// Whether the library's answer for a sector is what the map has at a byte of the disk.
fn same_source(located: &Located, run: &Run, byte: u64, layers: u64) -> bool {
    let same = match (run.present, run.zero, run.data, run.offset) {
        (false, true, false, None) => located.source == Source::Absent,
        (true, true, false, None) => located.source == Source::Zero,
        (true, false, true, Some(offset)) => {
            let sector = (offset + byte - run.start) / SECTOR;
            located.source == Source::Stored { sector }
        }
        (true, false, true, None) => matches!(located.source, Source::Packed { .. }),
        _ => panic!("no such run: {run:?}"),
    };
    same && located.layer + run.depth + 1 == layers
}

/// Looks up and reads every sector of a disk, and compares what it reads; `see` is told the byte of the disk and the answer.
fn walk(name: &str, extents: &[Extent], mut see: impl FnMut(u64, &Extent, &Located)) {
    let digests = text(&format!("{name}.vmdk.raw.sha256"));
    let mut raw = Raw::new(name, &digests);
    let mut reader = Reader::default();
    for extent in extents {
        let past = extent.look(extent.sectors).map_err(|why| why.refusal);
        assert_eq!(past, refused(20), "{name}");
        for sector in 0..extent.sectors {
            let located = extent.look(sector).unwrap();
            see(raw.at(), extent, &located);
            raw.push(reader.read(extent, sector, &located));
        }
    }
    raw.finish();
}

/// Walks a disk with its map. How many sectors there were of each kind.
fn walk_with_map(name: &str, extents: &[Extent]) -> [u64; 4] {
    let mut runs = runs(&text(&format!("{name}.vmdk.map")))
        .into_iter()
        .peekable();
    let mut counts = [0; 4];
    walk(name, extents, |byte, extent, located| {
        runs.next_if(|run| run.start + run.length == byte);
        let run = runs.peek().expect("the map ends before the disk");
        assert!(
            same_source(located, run, byte, extent.height()),
            "{name}, byte {byte}: {located:?} and {run:?}"
        );
        counts[kind(located.source)] += 1;
    });
    runs.next();
    assert!(
        runs.next().is_none(),
        "{name}: the disk ends before the map"
    );
    counts
}

/// Every disk of samples, with the layers under it, and how many sectors are absent, zero, stored and packed.
#[rustfmt::skip]
const DISKS: [(&str, &[&str], [u64; 4]); 15] = [
    ("monolithic-sparse", &[], [2048, 0, 0, 0]),
    ("stream-optimized", &[], [2048, 0, 0, 0]),
    ("zeroed-grain", &[], [2048, 0, 0, 0]),
    ("delta", &["monolithic-sparse"], [2048, 0, 0, 0]),
    ("monolithic-sparse-data", &[], [640, 0, 360, 0]),
    ("stream-optimized-data", &[], [768, 0, 0, 232]),
    ("vmdkstream", &[], [384, 0, 0, 387]),
    ("zeroed-grain-data", &[], [616, 256, 128, 0]),
    ("chain-base", &[], [616, 0, 384, 0]),
    ("chain-middle", &["chain-base"], [488, 128, 384, 0]),
    ("chain-top", &["chain-base", "chain-middle"], [488, 128, 384, 0]),
    ("tool-base", &[], [1792, 0, 256, 0]),
    ("tool-middle", &["tool-base"], [1664, 128, 256, 0]),
    ("tool-top", &["tool-base", "tool-middle"], [1536, 256, 256, 0]),
    ("tool-packed", &[], [1792, 0, 0, 256]),
];

/// The same of disks that a descriptor tells of.
const DESCRIBED: [(&str, [u64; 4]); 2] = [
    ("two-gb-sparse", [2048, 0, 0, 0]),
    ("two-gb-sparse-data", [4_194_304, 0, 200, 0]),
];

/// The one that is COWD.
const OLD: &str = "cowd";

fn files(name: &str, under: &[&str]) -> Vec<String> {
    let layers = under.iter().chain([&name]);
    layers.map(|layer| format!("{layer}.vmdk")).collect()
}

#[test]
fn images() {
    for (name, under, counts) in DISKS {
        let extent = Extent::new(&files(name, under));
        assert_eq!(walk_with_map(name, &[extent]), counts, "{name}");
    }
}

#[test]
fn disks_of_extents() {
    for (name, counts) in DESCRIBED {
        assert_eq!(walk_with_map(name, &described(name)), counts, "{name}");
    }
}

/// The disk that is COWD is moved, and its sectors keep their kind and bytes: the map has other places.
#[test]
fn an_old_disk() {
    let old = bytes("cowd-s001.vmdk");
    assert_eq!(check(&old), refused(43));
    let mut moved = vec![0; 1 << 16];
    let length = to_kdmv(&old, &mut moved).unwrap();
    moved.truncate(length as usize);
    let runs = runs(&text(&format!("{OLD}.vmdk.map")));
    let mut counts = [0; 4];
    walk(OLD, &[Extent::of(&[moved])], |byte, _, located| {
        let run = runs.iter().rev().find(|run| run.start <= byte);
        let stored = matches!(located.source, Source::Stored { .. });
        assert_eq!(run.map(|run| run.present), Some(stored), "byte {byte}");
        counts[kind(located.source)] += 1;
    });
    assert_eq!(counts, [72, 0, 28, 0]);
}

/// The collapse of a chain reads as qemu-img read the chain, and has its sources.
#[test]
fn collapsed_chains() {
    for (name, under, counts) in DISKS {
        let layers: Vec<Vec<u8>> = files(name, under).iter().map(|file| bytes(file)).collect();
        let [.., packed] = counts;
        if packed > 0 || name.starts_with("stream") {
            assert_eq!(normal(&layers[0], &mut []), refused(23), "{name}");
            continue;
        }
        let mut out = vec![0; 1 << 20];
        let length = normal(&layers[0], &mut out).unwrap();
        let mut one = out[..length as usize].to_vec();
        for upper in &layers[1..] {
            let length = collapse(&one, upper, &mut out).unwrap();
            one = out[..length as usize].to_vec();
        }
        let mut seen = [0; 4];
        walk(name, &[Extent::of(&[one])], |_, _, located| {
            seen[kind(located.source)] += 1
        });
        assert_eq!(seen, counts, "{name}");
    }
}

/// The descriptors inside images: qemu-img's are read, VMDKstream's first line is none of document 01's.
#[test]
fn descriptors() {
    for (name, _, _) in DISKS {
        let image = bytes(&format!("{name}.vmdk"));
        let head = header(&image).unwrap();
        let from = head.descriptor * SECTOR;
        let area = &image[from as usize..(from + head.descriptor_sectors * SECTOR) as usize];
        let sectors = descriptor(area).map(|said| {
            let extents = said.extents.iter();
            extents.map(|extent| extent.sectors).collect::<Vec<u64>>()
        });
        if name == "vmdkstream" {
            assert_eq!(sectors, refused(30), "{name}");
        } else {
            assert_eq!(sectors, Ok(vec![head.disk.capacity]), "{name}");
        }
    }
}

/// The areas of an image but its grains: group, first sector, sectors.
fn areas(image: &[u8]) -> Vec<(Group, u64, u64)> {
    let areas = frame(image).unwrap().into_iter();
    areas
        .map(|area| (area.group, area.first, area.sectors))
        .collect()
}

/// qemu-img lays all its images out alike; VMDKstream has a footer.
#[test]
fn frames() {
    let qemu = [
        (Group::Header, 0, 1),
        (Group::Descriptor, 1, 20),
        (Group::Directory, 26, 1),
        (Group::RedundantDirectory, 21, 1),
        (Group::PrimaryTable, 27, 4),
        (Group::RedundantTable, 22, 4),
    ];
    let stream = [
        (Group::Header, 0, 1),
        (Group::Descriptor, 1, 1),
        (Group::Directory, 141, 1),
        (Group::PrimaryTable, 136, 4),
        (Group::Footer, 143, 1),
        (Group::LastSector, 144, 1),
    ];
    for (name, _, _) in DISKS {
        let expected = if name == "vmdkstream" { stream } else { qemu };
        assert_eq!(areas(&bytes(&format!("{name}.vmdk"))), expected, "{name}");
    }
}

/// Of an image without packed grains the frame alone, zeros elsewhere, has the same check, lookups and frame.
#[test]
fn frames_decide() {
    for (name, _, counts) in DISKS {
        let image = bytes(&format!("{name}.vmdk"));
        let mut alone = vec![0; image.len()];
        for (_, first, sectors) in areas(&image) {
            let part = (first * SECTOR) as usize..((first + sectors) * SECTOR) as usize;
            alone[part.clone()].copy_from_slice(&image[part]);
        }
        assert_eq!(areas(&alone), areas(&image), "{name}");
        let [.., packed] = counts;
        if packed > 0 {
            // What is left of a packed grain is a marker of zeros.
            let number = check(&alone).map_err(|refusal| refusal.number);
            assert_eq!(number, Err(10), "{name}");
            continue;
        }
        let disk = check(&image);
        assert_eq!(check(&alone), disk, "{name}");
        for sector in 0..=disk.unwrap().capacity {
            let found = (lookup(&alone, sector), lookup(&image, sector));
            assert_eq!(found.0, found.1, "{name} {sector}");
        }
    }
}

/// No sample is left out.
#[test]
fn all_samples() {
    let images = DISKS.iter().map(|disk| disk.0);
    let mut tested: Vec<String> = images
        .chain(DESCRIBED.iter().map(|disk| disk.0))
        .chain([OLD])
        .map(str::to_string)
        .collect();
    tested.sort();
    let mut stored = Vec::new();
    for entry in std::fs::read_dir(path("")).unwrap() {
        let name = entry.unwrap().file_name().into_string().unwrap();
        stored.extend(name.strip_suffix(".vmdk.map").map(str::to_string));
    }
    stored.sort();
    assert_eq!(tested, stored);
}
