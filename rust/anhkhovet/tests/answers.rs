//! The answers of the crate's root: each case of each enum, and the refusals with their words.

mod common;

use anhkhovet::{
    chain, check, collapse, descriptor, find, header, lookup, normal, raw, read, read_part, Access,
    ChainRefusal, Counted, Disk, Extent, ExtentKind, Header, Located, Refusal, Source,
};
use common::image;

const DISK: Disk = Disk {
    capacity: 200,
    grain_size: 8,
};

fn refused(number: u64, place: u64) -> Refusal {
    Refusal { number, place }
}

/// The small image's disk, with grain 2 packed at sector 8: a payload of five bytes.
fn packed() -> Vec<u8> {
    let mut packed = image();
    packed[8 * 512..].fill(0);
    packed[10] = 1;
    packed[77] = 1;
    packed[8 * 512] = 16;
    packed[8 * 512 + 8] = 5;
    packed[8 * 512 + 12..8 * 512 + 17].fill(7);
    packed
}

#[test]
fn whole_images() {
    let image = image();
    let said = Header {
        disk: DISK,
        descriptor: 6,
        descriptor_sectors: 2,
        dirty: 0,
    };
    assert_eq!((check(&image), header(&image)), (Ok(DISK), Ok(said)));
    let cut = &image[..image.len() - 1];
    assert_eq!((check(cut), header(cut)), (Err(refused(9, 2)), Ok(said)));
    assert_eq!(header(b"KDMV"), Err(refused(1, 0)));
}

#[test]
fn sources() {
    let image = image();
    assert_eq!(lookup(&image, 0), Ok(Source::Absent));
    assert_eq!(lookup(&image, 24), Ok(Source::Zero));
    assert_eq!(lookup(&image, 19), Ok(Source::Stored { sector: 11 }));
    assert_eq!(lookup(&image, 200), Err(refused(20, 0)));
    assert_eq!(read_part(&image, 19), 11 * 512..12 * 512);
    assert_eq!(read_part(&image, 24), 0..0);

    let packed = packed();
    let source = Source::Packed {
        sector: 8,
        size: 5,
        offset: 3,
    };
    assert_eq!(lookup(&packed, 19), Ok(source));
    assert_eq!(read(&packed, 19), [7; 5]);
    assert_eq!(check(&packed), Ok(DISK));
}

#[test]
fn chains() {
    let image = image();
    let mut empty = image.clone();
    empty[2 * 512 + 8..2 * 512 + 16].fill(0);
    let layers = [&image[..], &empty[..]].concat();
    let lengths = [image.len() as u64, empty.len() as u64];
    let source = Source::Stored { sector: 11 };
    assert_eq!(
        chain(&layers, &lengths, 19),
        Ok(Located { layer: 0, source })
    );
    let refusal = |number, place, layer| {
        let refusal = refused(number, place);
        Err(ChainRefusal { refusal, layer })
    };
    assert_eq!(chain(&layers, &lengths, 200), refusal(20, 0, 0));

    let mut broken = layers.clone();
    broken[image.len() + 4] = 9;
    let of_a_layer = chain(&broken, &lengths, 19);
    assert_eq!(of_a_layer, refusal(3, 0, 1));
    assert_eq!(
        of_a_layer.unwrap_err().to_string(),
        "layer 1: refused 3: the header has a version that is not known"
    );
    let of_all = chain(&layers, &[], 19).unwrap_err();
    assert_eq!(of_all.layer_at_fault(), None);
    assert_eq!(
        of_all.to_string(),
        "refused 24: a chain has 1 to 16 layers, a survey 1 to 1,024 images, a disk of several files one for each extent"
    );
}

#[test]
fn written_images() {
    let image = image();
    let mut out = vec![9; 16 * 512 + 1];
    assert_eq!(normal(&image, &mut out), Ok(16 * 512));
    assert_eq!(
        collapse(&image, &out[..16 * 512], &mut []),
        Err(refused(21, 0))
    );
    assert_eq!(normal(&packed(), &mut out), Err(refused(23, 0)));
    let mut other = image.clone();
    other[12] = 201;
    assert_eq!(collapse(&image, &other, &mut out), Err(refused(22, 0)));
    assert_eq!(
        collapse(&image, &image[..512], &mut out),
        Err(refused(8, 1))
    );
}

#[test]
fn texts() {
    let lines = [
        ("RW 1 FLAT \"a\" 7", Access::ReadWrite, ExtentKind::Flat, 7),
        ("RDONLY 2 VMFS \"b\"", Access::ReadOnly, ExtentKind::Vmfs, 0),
        (
            "NOACCESS 3 SPARSE \"c\"",
            Access::None,
            ExtentKind::Sparse,
            0,
        ),
        (
            "RW 4 VMFSSPARSE \"d\"",
            Access::ReadWrite,
            ExtentKind::VmfsSparse,
            0,
        ),
        ("RW 5 ZERO", Access::ReadWrite, ExtentKind::Zero, 0),
    ];
    let mut text =
        String::from("# Disk DescriptorFile\nversion=1\nCID=2\nparentCID=3\ncreateType=\"t\"\n");
    for (line, ..) in lines {
        text = text + line + "\n";
    }
    let said = descriptor(text.as_bytes()).unwrap();
    assert_eq!((said.version, said.cid, said.parent_cid), (1, 2, 3));
    assert_eq!(&text[said.create_type.clone()], "t");
    assert_eq!(said.extents.len(), lines.len());
    let mut first = 0;
    for (number, (line, access, kind, offset)) in lines.into_iter().enumerate() {
        let extent = &said.extents[number];
        assert_eq!((extent.first, extent.sectors), (first, number as u64 + 1));
        assert_eq!((extent.access, extent.kind), (access, kind));
        assert_eq!(extent.offset, offset);
        let words: Vec<&str> = line
            .split([' ', '"'])
            .filter(|word| !word.is_empty())
            .collect();
        assert_eq!((access.word(), kind.word()), (words[0], words[2]));
        assert_eq!(&text[extent.name.clone()], *words.get(3).unwrap_or(&""));
        assert_eq!(find(&said.extents, first), Ok(number));
        first += extent.sectors;
    }
    assert_eq!(find(&said.extents, first), Err(refused(20, 0)));
    assert_eq!(descriptor(&text.as_bytes()[1..]), Err(refused(30, 0)));
}

/// A list of a caller's own goes over as it is: the first record that holds the sector, not the next in order.
#[test]
fn lists_of_any_records() {
    let extent = |first, sectors| Extent {
        first,
        sectors,
        access: Access::None,
        kind: ExtentKind::Zero,
        name: 0..0,
        offset: 0,
    };
    let list = [extent(10, 5), extent(u64::MAX, 9), extent(0, 100)];
    assert_eq!((find(&list, 12), find(&list, 9)), (Ok(0), Ok(2)));
    assert_eq!(find(&[], 0), Err(refused(20, 0)));
}

#[test]
fn words_of_refusals() {
    let line = descriptor(b"# Disk DescriptorFile\nversion=1\nx").unwrap_err();
    assert_eq!((line, line.counted()), (refused(32, 3), Counted::Line));
    assert_eq!(refused(10, 0).counted(), Counted::Grain);
    assert_eq!(refused(33, 0).counted(), Counted::Nothing);
    assert_eq!(refused(42, 0).counted(), Counted::Byte);
    assert_eq!(
        line.to_string(),
        "refused 32 at line 3: the line is neither an extent nor of the form key = value"
    );
    let numbers = (1..=12)
        .chain(20..=24)
        .chain(30..=36)
        .chain([27, 38, 39])
        .chain(40..=45)
        .chain([47]);
    let mut sentences: Vec<&str> = numbers
        .map(|number| refused(number, 1).sentence())
        .collect();
    sentences.push(refused(33, 0).sentence());
    sentences.extend((2..=6).map(|place| refused(8, place).sentence()));
    let all = sentences.len();
    sentences.sort_unstable();
    sentences.dedup();
    assert_eq!(sentences.len(), all);
    assert!(!sentences.contains(&refused(99, 0).sentence()));
}

/// The root tells what the raw calls say.
#[test]
fn raw_answers() {
    let image = image();
    for sector in 0..210 {
        let numbers = raw::lookup(&image, sector);
        match lookup(&image, sector) {
            Ok(source) => assert_eq!((numbers.number, source), (0, expected(&numbers))),
            Err(refusal) => assert_eq!(refusal, refused(numbers.number, numbers.place)),
        }
    }
}

fn expected(numbers: &raw::Located) -> Source {
    let sector = numbers.sector;
    [Source::Absent, Source::Zero, Source::Stored { sector }][numbers.kind as usize]
}
