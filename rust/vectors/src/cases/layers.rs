//! The example of crates/examples/proofs/ExampleLayers.antt, byte by byte: two layers, and what they collapse to.
//! The results are written out, so that nobody's collapse is believed.

use super::{Case, COLLAPSE};
use crate::numbers::{digest, line};

/// What an output holds before a call.
const HELD: u8 = 170;

/// The program's input.
pub fn input() -> Vec<u8> {
    let cases = told().into_iter().map(|(case, _)| case.to_bytes());
    cases.flatten().collect()
}

/// What the program must print for it.
pub fn lines() -> String {
    told().into_iter().map(|(_, line)| line + "\n").collect()
}

/// The collapse and the lower layer's normal form: with just enough room, with a sector more, and a byte short.
fn told() -> Vec<(Case, String)> {
    let (both, one) = ([lower(), upper()], [lower()]);
    vec![
        written(&both, collapsed(), 20_480),
        written(&both, collapsed(), 20_992),
        refused(&both, 20_479),
        written(&one, normal(), 16_384),
        refused(&one, 16_383),
    ]
}

fn written(layers: &[Vec<u8>], result: Vec<u8>, room: usize) -> (Case, String) {
    let mut out = vec![HELD; room];
    out[..result.len()].copy_from_slice(&result);
    asked(layers, 0, result.len(), &out)
}

fn refused(layers: &[Vec<u8>], room: usize) -> (Case, String) {
    asked(layers, 21, 0, &vec![HELD; room])
}

/// A case, and its line: number, place, length and the output's digest.
fn asked(layers: &[Vec<u8>], number: u64, length: usize, out: &[u8]) -> (Case, String) {
    let call = match layers {
        [_] => "normal ",
        _ => "collapse ",
    };
    let case = Case {
        asked: COLLAPSE,
        lengths: layers.iter().map(|layer| layer.len() as u64).collect(),
        bytes: layers.concat(),
        room: out.len() as u64,
        ..Case::default()
    };
    (case, line(call, &[number, 0, length as u64, digest(out)]))
}

/// Three grains absent, three zero, three stored. Entry 9 is not used.
fn lower() -> Vec<u8> {
    [
        header([2, 5, 1, 0]),
        padded(&[2, 0, 0, 0], 512),
        table(&[0, 0, 0, 1, 1, 1, 14, 22, 6, 7]),
        filled(0x18),
        filled(0x16),
        filled(0x17),
    ]
    .concat()
}

/// Absent, zero and stored in turn.
fn upper() -> Vec<u8> {
    [
        header([2, 5, 2, 0]),
        vec![0; 512],
        padded(&[3, 0, 0, 0], 512),
        table(&[0, 1, 23, 0, 1, 7, 0, 1, 15]),
        filled(0x25),
        filled(0x28),
        filled(0x22),
    ]
    .concat()
}

fn collapsed() -> Vec<u8> {
    let grains = [filled(0x22), filled(0x25), filled(0x16), cut(0x28)];
    image(&[0, 1, 8, 1, 1, 16, 24, 1, 32], grains.concat())
}

/// The lower layer's normal form.
fn normal() -> Vec<u8> {
    let grains = [filled(0x16), filled(0x17), cut(0x18)];
    image(&[0, 0, 0, 1, 1, 1, 8, 16, 24], grains.concat())
}

/// A written image: the header, the directory, the table, the gap, the grains.
fn image(entries: &[u8], grains: Vec<u8>) -> Vec<u8> {
    [
        header([2, 5, 1, 8]),
        padded(&[2, 0, 0, 0], 512),
        table(entries),
        vec![0; 1024],
        grains,
    ]
    .concat()
}

/// Sector 0.
#[rustfmt::skip]
fn header([version, flags, directory, overhead]: [u8; 4]) -> Vec<u8> {
    let fields = [
        0x4b, 0x44, 0x4d, 0x56,
        version, 0, 0, 0,
        flags, 0, 0, 0,
        69, 0, 0, 0, 0, 0, 0, 0, // capacity
        8, 0, 0, 0, 0, 0, 0, 0, // grain size
        0, 0, 0, 0, 0, 0, 0, 0, // descriptor
        0, 0, 0, 0, 0, 0, 0, 0, // descriptor sectors
        0, 2, 0, 0, // entries per table
        0, 0, 0, 0, 0, 0, 0, 0, // redundant directory
        directory, 0, 0, 0, 0, 0, 0, 0,
        overhead, 0, 0, 0, 0, 0, 0, 0,
        0, // clean
        0x0a, 0x20, 0x0d, 0x0a,
        0, 0, // compression
    ];
    padded(&fields, 512)
}

/// A table, whose entries are one byte each and three zeros.
fn table(entries: &[u8]) -> Vec<u8> {
    let bytes: Vec<u8> = entries.iter().flat_map(|entry| [*entry, 0, 0, 0]).collect();
    padded(&bytes, 2048)
}

/// Bytes, and zeros up to a length.
fn padded(bytes: &[u8], length: usize) -> Vec<u8> {
    let mut padded = bytes.to_vec();
    padded.resize(length, 0);
    padded
}

/// A grain of one byte: 0x16 is grain 6 of the lower layer, 0x22 grain 2 of the upper one.
fn filled(byte: u8) -> Vec<u8> {
    vec![byte; 4096]
}

/// The last grain, of which five sectors stand below capacity.
fn cut(byte: u8) -> Vec<u8> {
    padded(&[byte; 2560], 4096)
}
