//! Request A5: the header call hands out the dirty number, which decides no check, lookup, chain, survey, frame or split.

mod common;
#[path = "common/open.rs"]
mod open;
#[path = "common/parts.rs"]
mod parts;

use common::put32;
use open::{small, stream, stream_with, with, BYTES};
use plain::{chain, check, frame, header, lookup, read, split, survey, Head};

/// The answer of one image on every call that the number decides nothing of.
fn answers(image: &[u8]) -> String {
    let (mut list, mut row, mut tally) = ([0; 64], [0; 6], [0; 63]);
    let length = [image.len() as u64];
    let mut told = format!("{:?}", check(image));
    told += &format!("{:?}", frame(image, &mut list));
    told += &format!("{:?}", survey(image, &length, &mut row, &mut tally));
    told += &format!("{list:?}{row:?}{tally:?}");
    let text = format!(
        "# Disk DescriptorFile\nversion=1\nCID=1\nparentCID=1\ncreateType=\"\"\nRW {} SPARSE \"a\"",
        header(image).capacity
    );
    let two = [image, image].concat();
    for sector in 0..=header(image).capacity {
        let cut = split(text.as_bytes(), image, &length, sector);
        let layers = chain(&two, &[length[0]; 2], sector);
        let own = (lookup(image, sector), read(image, sector));
        told += &format!("{own:?}{cut:?}{layers:?}");
    }
    told
}

#[test]
fn the_header_hands_it_out() {
    let expected = Head {
        capacity: 20,
        grain_size: 8,
        descriptor: 6,
        descriptor_sectors: 1,
        ..Head::default()
    };
    assert_eq!(header(&small()), expected);
    for dirty in BYTES {
        let expected = Head {
            dirty: u64::from(dirty),
            ..expected
        };
        assert_eq!(header(&with(&small(), dirty)), expected);
    }
    // The bytes beside it are the overhead's and a newline.
    let mut image = small();
    (image[8], image[71], image[73]) = (4, 255, 255);
    assert_eq!(header(&image), expected);
    // A KDMV image has no number at 1648.
    let mut image = small();
    put32(&mut image, 1648, u32::MAX);
    assert_eq!(header(&image), expected);
}

#[test]
fn a_refused_header_hands_out_none() {
    for (at, value, number) in [(3, b'W', 2), (4, 0, 3), (8, 9, 5), (20, 12, 6)] {
        let mut image = with(&small(), 255);
        image[at] = value;
        let expected = Head {
            number,
            ..Head::default()
        };
        assert_eq!(header(&image), expected);
    }
    let refused = |image: &[u8]| {
        let head = header(image);
        (head.number, head.dirty)
    };
    assert_eq!(refused(&with(&small(), 255)[..511]), (1, 0));
    // Nor does that of COWD.
    let mut image = [&b"COWD"[..], &[0; 2044]].concat();
    put32(&mut image, 1648, 255);
    assert_eq!(refused(&image[..2047]), (1, 0));
    assert_eq!(refused(&image), (43, 0));
}

#[test]
fn checks_and_lookups_do_not_ask_for_it() {
    let clean = answers(&small());
    for dirty in BYTES {
        assert_eq!(answers(&with(&small(), dirty)), clean, "{dirty}");
    }
}

#[test]
fn a_footer_has_it_too() {
    let clean = answers(&stream());
    for dirty in BYTES {
        let image = stream_with(dirty);
        assert_eq!(answers(&image), clean, "{dirty}");
        assert_eq!(header(&image).dirty, u64::from(dirty));
        // One of the two alone breaks the footer's rules.
        for at in [72, 10 * 512 + 72] {
            let mut image = image.clone();
            image[at] ^= dirty;
            assert_eq!(check(&image).number, 7, "{at} {dirty}");
            assert_eq!((header(&image).number, header(&image).dirty), (7, 0));
            assert_eq!(lookup(&image, 0).number, 7);
        }
    }
}
