//! Both moves: the layouts that they write, sectors that keep kind and bytes, each refusal, the room on both sides of the edge.

mod common;

use anhkhovet::raw::{self, Written};
use anhkhovet::{check, header, normal, read, to_cowd, to_kdmv, Refusal};
use common::image;
use std::fs;

type Move = fn(&[u8], &mut [u8]) -> Result<u64, Refusal>;

/// What outputs hold before a call.
const HELD: u8 = 170;

fn put(image: &mut [u8], at: usize, number: u32) {
    image[at..at + 4].copy_from_slice(&number.to_le_bytes());
}

/// Three grains of 8 sectors, the last of four: stored at 46, absent, stored at 38. Each sector is filled with its number.
fn old() -> Vec<u8> {
    let mut image = vec![0; 54 * 512];
    for (sector, bytes) in image.chunks_mut(512).enumerate().skip(38) {
        bytes.fill(sector as u8);
    }
    image[..4].copy_from_slice(b"COWD");
    let header = [(4, 1), (8, 3), (12, 20), (16, 8), (20, 4), (24, 1)];
    let entries = [(4 * 512, 5), (5 * 512, 46), (5 * 512 + 8, 38)];
    for (at, number) in header.into_iter().chain(entries) {
        put(&mut image, at, number);
    }
    image
}

/// The same disk as KDMV has it: directory at 1, table at 2 to 5, V 8.
fn young() -> Vec<u8> {
    let mut image = vec![0; 24 * 512];
    image[..4].copy_from_slice(b"KDMV");
    let header = [
        (4, 2),
        (8, 5),
        (12, 20),
        (20, 8),
        (44, 512),
        (56, 1),
        (64, 8),
    ];
    let entries = [(512, 2), (2 * 512, 8), (2 * 512 + 8, 16)];
    for (at, number) in header.into_iter().chain(entries) {
        put(&mut image, at, number);
    }
    image[73..77].copy_from_slice(b"\n \r\n");
    fill(&mut image, 8);
    image
}

/// The grains of both results from a sector on. The last four sectors, which are past capacity, stay zero.
fn fill(image: &mut [u8], first: usize) {
    for (at, from) in (first..).zip((46..54).chain(38..42)) {
        image[at * 512..][..512].fill(from);
    }
}

/// What is answered with this room, and the output; on a refusal all of it is as before.
fn answer(way: Move, image: &[u8], room: usize) -> (Result<u64, Refusal>, Vec<u8>) {
    let mut out = vec![HELD; room];
    let answer = way(image, &mut out);
    let written = answer.unwrap_or(0) as usize;
    assert!(out[written..].iter().all(|byte| *byte == HELD));
    (answer, out)
}

/// The result, which there is room for exactly, and not with a byte less.
fn moved(way: Move, image: &[u8]) -> Vec<u8> {
    let (answered, mut out) = answer(way, image, 1 << 20);
    let length = answered.unwrap() as usize;
    out.truncate(length);
    assert_eq!(answer(way, image, length), (Ok(length as u64), out.clone()));
    assert_refused(way, image, length - 1, 21);
    // Of COWD a move tells: it lacks room alone.
    let accepted = match out.starts_with(b"KDMV") {
        true => check(&out).is_ok(),
        false => raw::to_kdmv(&out, &mut []).number == 21,
    };
    assert!(accepted);
    out
}

/// The bytes of a sector, none where it is absent. No call reads COWD: there the directory names one table, and that the grain.
fn bytes(image: &[u8], sector: u64) -> &[u8] {
    if image.starts_with(b"KDMV") {
        return read(image, sector);
    }
    let number = |at: usize| u32::from_le_bytes(image[at..at + 4].try_into().unwrap()) as usize;
    let (sector, size) = (sector as usize, number(16));
    let grain = number(512 * number(512 * number(20)) + 4 * (sector / size));
    match grain {
        0 => &[],
        _ => &image[512 * (grain + sector % size)..][..512],
    }
}

fn assert_refused(way: Move, image: &[u8], room: usize, number: u64) {
    let refused = Refusal { number, place: 0 };
    assert_eq!(answer(way, image, room).0, Err(refused));
}

#[test]
fn every_byte_of_a_kdmv_result() {
    assert_eq!(moved(to_kdmv, &old()), young());
}

#[test]
fn every_byte_of_a_cowd_result() {
    let mut expected = vec![0; 53 * 512];
    expected[..4].copy_from_slice(b"COWD");
    let header = [
        (4, 1),
        (8, 3),
        (12, 20),
        (16, 8),
        (20, 4),
        (24, 1),
        (28, 53),
    ];
    // The table takes 32 sectors, from 5 on; grains follow with no rounding.
    let entries = [(4 * 512, 5), (5 * 512, 37), (5 * 512 + 8, 45)];
    for (at, number) in header.into_iter().chain(entries) {
        put(&mut expected, at, number);
    }
    fill(&mut expected, 37);
    assert_eq!(moved(to_cowd, &young()), expected);
    // There and back, and once more.
    assert_eq!(moved(to_kdmv, &expected), young());
    assert_eq!(moved(to_cowd, &moved(to_kdmv, &old())), expected);
}

#[test]
fn each_sector_keeps_its_kind_and_bytes() {
    let samples = [
        ("cowd-s001", to_kdmv as Move, 100),
        ("tool-base", to_cowd, 2048),
        ("monolithic-sparse-data", to_cowd, 1000),
    ];
    for (name, way, capacity) in samples {
        let image = fs::read(format!("../../samples/{name}.vmdk")).unwrap();
        let result = moved(way, &image);
        let young = [&image, &result].map(|image| check(image).ok());
        let disk = young.into_iter().flatten().next().unwrap();
        assert_eq!(disk.capacity, capacity);
        let held = (0..capacity).filter(|sector| !bytes(&image, *sector).is_empty());
        assert!(held.count() > 0, "{name}");
        for sector in 0..capacity {
            // No grain of them is marked as zeros: what has no bytes is absent.
            assert_eq!(bytes(&image, sector), bytes(&result, sector), "{name}");
        }
    }
}

#[test]
fn there_and_back_is_the_normal_form() {
    let image = fs::read("../../samples/tool-base.vmdk").unwrap();
    let mut expected = vec![0; 1 << 20];
    let length = normal(&image, &mut expected).unwrap() as usize;
    expected.truncate(length);
    assert_eq!(moved(to_kdmv, &moved(to_cowd, &image)), expected);
}

#[test]
fn the_other_kind_and_packed_images() {
    let packed = fs::read("../../samples/tool-packed.vmdk").unwrap();
    for room in [0, 1 << 16] {
        assert_refused(to_kdmv, &young(), room, 23);
        assert_refused(to_cowd, &old(), room, 23);
        assert_refused(to_cowd, &packed, room, 23);
        assert_refused(to_kdmv, &packed, room, 23);
    }
    // The image's own check first: an entry that names no sector of the file.
    let mut past = old();
    put(&mut past, 5 * 512 + 4, 99);
    let refused = Refusal {
        number: 9,
        place: 1,
    };
    for way in [to_kdmv as Move, to_cowd] {
        assert_eq!(answer(way, &past, 0).0, Err(refused));
    }
}

#[test]
fn disks_that_were_still_open() {
    for (image, way, at) in [(old(), to_kdmv as Move, 1648), (young(), to_cowd, 72)] {
        let mut open = image.clone();
        open[at] = 1;
        let told = header(&open).map(|header| header.still_open());
        let gone = Refusal {
            number: 43,
            place: 0,
        };
        assert_eq!(told, if at == 72 { Ok(true) } else { Err(gone) });
        assert_refused(way, &open, 1 << 16, 27);
        // 23 comes before it, 44 and 21 behind it.
        let other: Move = if at == 72 { to_kdmv } else { to_cowd };
        assert_refused(other, &open, 1 << 16, 23);
        assert_refused(way, &open, 0, 27);
        put(
            &mut open,
            if at == 72 { 2 * 512 + 4 } else { 16 },
            if at == 72 { 1 } else { 4 },
        );
        assert_refused(way, &open, 1 << 16, 27);
        open[at] = 0;
        assert_refused(way, &open, 1 << 16, 44);
        assert_refused(way, &open, 0, 44);
    }
}

#[test]
fn grains_under_8_sectors() {
    for (grain_size, number) in [(1, 44), (2, 44), (4, 44), (8, 0)] {
        let mut image = old();
        put(&mut image, 16, grain_size);
        let (answered, _) = answer(to_kdmv, &image, 1 << 16);
        assert_eq!(
            answered.map_or_else(|refused| refused.number, |_| 0),
            number
        );
    }
}

#[test]
fn grains_marked_as_zeros() {
    // The small image has one, in version 2 with flag 0x4; without the flag 1 is a sector, which its directory has.
    assert_refused(to_cowd, &image(), 1 << 16, 44);
    let mut stored = image();
    stored[8] = 0;
    assert_eq!(answer(to_cowd, &stored, 0).0.unwrap_err().number, 12);
    // A directory entry of 1 stands for grains that are all zero; unused entries say nothing.
    let mut all = young();
    put(&mut all, 512, 1);
    assert_refused(to_cowd, &all, 1 << 16, 44);
    let mut unused = young();
    put(&mut unused, 2 * 512 + 12, 1);
    put(&mut unused, 512 + 4, 1);
    assert_eq!(moved(to_cowd, &unused), moved(to_cowd, &young()));
}

#[test]
fn raw_answers() {
    let mut out = vec![HELD; 24 * 512 + 1];
    let written = Written {
        length: 24 * 512,
        ..Written::default()
    };
    assert_eq!(raw::to_kdmv(&old(), &mut out), written);
    assert_eq!((&out[..24 * 512], out[24 * 512]), (&young()[..], HELD));
    assert_eq!(raw::to_cowd(&young(), &mut out[1..]).number, 21);
    assert_eq!(raw::to_cowd(&young(), &mut []).number, 21);
    assert_eq!(raw::to_kdmv(&[], &mut []).number, 1);
    assert_eq!(raw::to_cowd(&[], &mut []).number, 1);
}
