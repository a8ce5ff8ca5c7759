//! The raw calls on small inputs: empty slices, each struct's fields in their places, and the reader's part.

mod common;

use anhkhovet::raw::{self, chain, check, header, lookup, read_part, Located, Part, Verdict};
use anhkhovet::read;
use common::image;

#[test]
fn one_image() {
    let image = image();
    let accepted = Verdict {
        capacity: 200,
        grain_size: 8,
        ..Verdict::default()
    };
    assert_eq!(check(&image), accepted);
    let head = header(&image);
    assert_eq!((head.number, head.capacity, head.grain_size), (0, 200, 8));
    assert_eq!((head.descriptor, head.descriptor_sectors), (6, 2));
    let stored = Located {
        kind: 2,
        sector: 11,
        ..Located::default()
    };
    assert_eq!(lookup(&image, 19), stored);
    assert_eq!(lookup(&image, 24).kind, 1);
    assert_eq!(lookup(&image, 0), Located::default());
    assert_eq!(lookup(&image, 200).number, 20);
    let part = Part {
        at: 11 * 512,
        length: 512,
    };
    assert_eq!(read_part(&image, 19), part);
    assert_eq!(read(&image, 19), [7; 512]);
    assert!(read(&image, 0).is_empty() && read(&image, 200).is_empty());

    let mut refused = image.clone();
    refused[2 * 512 + 8] = 9;
    assert_eq!((check(&refused).number, check(&refused).place), (9, 2));
    assert_eq!(lookup(&refused, 19).place, 2);
    let both = [refused, image].concat();
    let found = chain(&both, &[16 * 512, 16 * 512], 19);
    assert_eq!((found.layer, found.sector), (1, 11));
}

#[test]
fn empty_slices() {
    assert_eq!(check(&[]).number, 1);
    assert_eq!(header(&[]).number, 1);
    assert_eq!(lookup(&[], 0).number, 1);
    assert_eq!(chain(&[], &[], 0).number, 24);
    assert_eq!(chain(&[], &[0], 0).number, 1);
    assert!(read(&[], 0).is_empty());
}

#[test]
fn writing() {
    let image = image();
    let mut out = vec![9; 16 * 512 + 1];
    let written = raw::normal(&image, &mut out);
    assert_eq!((written.number, written.length), (0, 16 * 512));
    assert_eq!(out[16 * 512], 9);
    let before = out.clone();
    assert_eq!(raw::collapse(&image, &image, &mut out), written);
    assert_eq!(out, before);
    assert_eq!(raw::normal(&image, &mut []).number, 21);
}

#[test]
fn descriptor() {
    use raw::{find, Extent};
    let text = b"# Disk DescriptorFile\nversion=1\nCID=2\nparentCID=3\ncreateType=\"t\"\nRDONLY 100 VMFS \"n\" 5";
    let mut list = [Extent::default(); 2];
    let described = raw::descriptor(text, &mut list);
    assert_eq!((described.number, described.extents), (0, 1));
    assert_eq!((described.version, described.cid), (1, 2));
    assert_eq!((described.parent_cid, described.type_length), (3, 1));
    assert_eq!(text[described.type_at as usize], b't');
    let extent = Extent {
        first: 0,
        sectors: 100,
        access: 2,
        kind: 2,
        name_at: text.len() as u64 - 4,
        name_length: 1,
        offset: 5,
    };
    assert_eq!(list, [extent, Extent::default()]);
    assert_eq!((find(&list, 99).number, find(&list, 100).number), (0, 20));
    assert_eq!(raw::descriptor(text, &mut []).number, 21);
    assert_eq!(find(&[], 0).number, 20);
    assert_eq!(raw::descriptor(&[], &mut list).number, 30);
}
