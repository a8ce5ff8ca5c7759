//! Lines at both sides of the grammar's edges.

use super::lines::{blanks, cased, decimal, joined, key_line, name};
use crate::rng::Rng;

const SECTORS: [&str; 17] = [
    "0",
    "1",
    "2147483648",
    "2147483649",
    "0000000001",
    "00000000001",
    "0000000000",
    "9999999999",
    "10000000000",
    "4294967297",
    "18446744073709551617",
    "",
    "-1",
    "+1",
    "1x",
    "0x1",
    "1\r",
];
const OFFSETS: [&str; 11] = [
    "0",
    "4294967295",
    "4294967296",
    "0000000000",
    "00000000000",
    "9999999999",
    "",
    "\"\"",
    "a",
    "0 0",
    "1\r2",
];
const KINDS: [&str; 8] = [
    "FLAT",
    "VMFS",
    "SPARSE",
    "VMFSSPARSE",
    "ZERO",
    "VMFSSPARS",
    "FLATS",
    "\"\"",
];
const ACCESSES: [&str; 7] = ["RW", "RDONLY", "NOACCESS", "RDWR", "R", "RW\r", "RW="];

/// An extent line with one field at an edge of its rule, or seldom all of them.
pub fn edge_extent(rng: &mut Rng) -> Vec<u8> {
    let edge = rng.below(6);
    let at = |field: u64| edge == field || edge == 5;
    let access = if at(0) { rng.pick(&ACCESSES) } else { "RW" };
    let sectors = if at(1) { rng.pick(&SECTORS) } else { "7" };
    let kind = if at(2) {
        rng.pick(&KINDS)
    } else {
        rng.pick(&["FLAT", "FLAT", "VMFS", "SPARSE"])
    };
    let name = if at(3) { edge_name(rng) } else { name(rng) };
    let offset = if at(4) { rng.pick(&OFFSETS) } else { "1" };
    let mut fields = vec![cased(rng, access), sectors.into(), cased(rng, kind), name];
    // The offset goes where the type takes one, and now and then where not.
    if kind == "FLAT" || kind == "VMFS" || rng.one_in(6) {
        fields.push(offset.into());
    }
    if rng.one_in(8) {
        fields.pop();
    }
    joined(rng, &fields)
}

/// A name at an edge of its length or its quotes.
fn edge_name(rng: &mut Rng) -> Vec<u8> {
    match rng.below(6) {
        0 => b"\"\"".to_vec(),
        1 => [b"\"".to_vec(), vec![b'n'; 256], b"\"".to_vec()].concat(),
        2 => [b"\"".to_vec(), vec![b'n'; 255], b"\"".to_vec()].concat(),
        3 => rng
            .pick(&[
                "\"a", "a\"", "a", "\"", "\"a\"b\"", "'a'", "\"a\"\"", "\" \"", "\"\r\"",
            ])
            .into(),
        _ => name(rng),
    }
}

/// A good extent line with a field taken away, doubled, or joined to the next.
pub fn broken_extent(rng: &mut Rng) -> Vec<u8> {
    let sectors = rng.within(1, 9);
    let kind = rng.pick(&["FLAT", "VMFS", "SPARSE", "ZERO"]);
    let mut fields: Vec<Vec<u8>> = vec![
        b"RW".to_vec(),
        decimal(rng, sectors),
        cased(rng, kind),
        b"\"a b\"".to_vec(),
        b"0".to_vec(),
    ];
    fields.truncate(rng.within(1, 5) as usize);
    let at = rng.index(fields.len());
    match rng.below(4) {
        0 => {
            fields.remove(at);
        }
        1 => fields.insert(at, fields[at].clone()),
        2 if at > 0 => {
            let field = fields.remove(at);
            fields[at - 1].extend(field);
        }
        _ => {
            let blank = blanks(rng);
            fields[at].extend(blank);
        }
    }
    joined(rng, &fields)
}

/// A required key with a value at an edge.
pub fn edge_key(rng: &mut Rng) -> Vec<u8> {
    let (key, values): (&str, &[&str]) = match rng.below(3) {
        0 => (
            "version",
            &[
                "0",
                "1",
                "3",
                "4",
                "0000000003",
                "00000000003",
                "",
                "x",
                "1 ",
                "1 1",
                "10000000001",
                "+1",
                "\"1\"",
            ],
        ),
        1 => (
            rng.pick(&["CID", "parentCID"]),
            &[
                "0",
                "ffffffff",
                "FFFFFFFF",
                "fffffffff",
                "012345678",
                "",
                "g",
                "0x1",
                "@",
                "G",
                "`",
                ":",
                "/",
                "1 2",
                "\u{e9}",
            ],
        ),
        _ => (
            "createType",
            &[
                "\"\"", "\"", "", "\"a", "a\"", "\"a\"\"", "\"a\"b\"", "\"a\" b", "a", "\" a \"",
                "\"=\"", "'a'",
            ],
        ),
    };
    let value = rng.pick(values);
    key_line(rng, key, value.into())
}

/// Lines of no form, and some that look like it.
pub fn odd_line(rng: &mut Rng) -> Vec<u8> {
    rng.pick(&[
        "=",
        "= 1",
        " \t\r= 1",
        "no form",
        "x",
        "RW",
        "RW = 1",
        "RW=1",
        "RW\r1 ZERO",
        "RW\r",
        "rw\t",
        "RDONLYX 1 ZERO",
        "RW 1 ZERO = 1",
        "\u{b}=1",
        "\u{b}",
        "\"=\"",
        " #",
        "\r#",
        "version",
        "version 1",
        "createType\t=\t\"x\"\t",
        "\u{e9}",
    ])
    .into()
}
