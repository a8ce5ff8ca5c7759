//! COWD images: every call but the moves refuses them with 43, right after 2, with place 0.

mod common;

use anhkhovet::{
    chain, check, check_in, close, collapse, frame, header, lookup, mend, normal, profile, raw,
    read, split, survey, to_cowd, to_kdmv, ChainRefusal, Refusal, Side, SplitRefusal, Tallied,
};
use common::image;
use std::fs;

const GONE: Refusal = Refusal {
    number: 43,
    place: 0,
};

fn old() -> Vec<u8> {
    fs::read("../../samples/cowd-s001.vmdk").unwrap()
}

/// The number that each call on one image gives.
fn numbers(image: &[u8]) -> [Refusal; 11] {
    let out = &mut [0; 1 << 16];
    let (list, changes) = (&mut [0; 4], &mut [0; 3]);
    let mut mended = image.to_vec();
    let small = common::image();
    [
        check(image).unwrap_err(),
        check_in(image, list).unwrap_err().refusal,
        profile(image).unwrap_err(),
        header(image).unwrap_err(),
        frame(image).unwrap_err(),
        lookup(image, 0).unwrap_err(),
        normal(image, out).unwrap_err(),
        collapse(image, &small, out).unwrap_err(),
        collapse(&small, image, out).unwrap_err(),
        mend(&mut mended, Side::Primary, changes).unwrap_err(),
        close(image, out).unwrap_err(),
    ]
}

#[test]
fn calls_on_one_image() {
    assert_eq!(numbers(&old()), [GONE; 11]);
    assert_eq!(read(&old(), 0), []);
    // Whatever its header says: the version comes behind it. A file of under 2,048 bytes has no header.
    let mut nothing = vec![0xff; 2048];
    nothing[..4].copy_from_slice(b"COWD");
    assert_eq!(numbers(&nothing), [GONE; 11]);
    let short = Refusal {
        number: 1,
        place: 0,
    };
    assert_eq!(numbers(&nothing[..2047]), [short; 11]);
}

#[test]
fn chains_and_surveys() {
    let (small, old) = (image(), old());
    let lengths = [&small, &old, &small].map(|image| image.len() as u64);
    let all = [&small[..], &old, &small].concat();
    let refusal = GONE;
    let refused = ChainRefusal { refusal, layer: 1 };
    assert_eq!(chain(&all, &lengths, 0), Err(refused));
    // Headers are judged from the top down.
    let two = [&old[..], &old].concat();
    let refused = ChainRefusal { refusal, layer: 1 };
    assert_eq!(chain(&two, &[lengths[1]; 2], 1 << 40), Err(refused));
    let said = survey(&all, &lengths).unwrap();
    assert_eq!(said.rows[1], Err(GONE));
    assert!(said.rows[0].is_ok() && said.rows[2] == said.rows[0]);
    let tallied = Tallied {
        number: 43,
        images: 1,
    };
    assert_eq!(said.tally, [tallied]);
}

#[test]
fn disks_of_several_files() {
    let old = old();
    let asked = |line: &str, file: &[u8], sector| {
        let text = format!(
            "# Disk DescriptorFile\nversion=1\nCID=1\nparentCID=1\ncreateType=\"\"\nRW 8 ZERO\n{line} \"a\""
        );
        split(text.as_bytes(), file, &[0, file.len() as u64], sector)
    };
    let refused = |number| {
        let refusal = Refusal { number, place: 0 };
        Err(SplitRefusal { refusal, extent: 1 })
    };
    // By the line alone, whatever the file holds; after 39.
    for file in [&old[..], &image(), b"", b"COW"] {
        assert_eq!(asked("RW 100 VMFSSPARSE", file, 8), refused(43));
        assert_eq!(asked("NOACCESS 100 VMFSSPARSE", file, 8), refused(39));
        assert!(asked("RW 100 VMFSSPARSE", file, 0).is_ok());
    }
    assert_eq!(asked("RW 100 SPARSE", &old, 8), refused(45));
    assert!(asked("RW 72 VMFS", &old, 8).is_ok());
    let told = asked("RW 100 VMFSSPARSE", &old, 8).unwrap_err();
    assert_eq!(
        told.to_string(),
        "extent 1: refused 43: it is a COWD image, or by its line an extent of one, and those are only moved to KDMV"
    );
}

#[test]
fn the_moves_take_them() {
    let mut out = vec![0; 1 << 16];
    let length = to_kdmv(&old(), &mut out).unwrap() as usize;
    assert!(check(&out[..length]).is_ok());
    assert_eq!(to_cowd(&old(), &mut []).unwrap_err().number, 23);
    // By their own rules: the version is the first of these.
    let mut other = old();
    other[4] = 2;
    assert_eq!(raw::to_kdmv(&other, &mut out).number, 3);
    assert_eq!(raw::to_cowd(&other, &mut out).number, 3);
}
