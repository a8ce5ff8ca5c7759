//! Sound texts in any spelling that the grammar takes.

use super::Text;
use crate::rng::Rng;

const ACCESS: [&str; 3] = ["RW", "RDONLY", "NOACCESS"];
const KEYS: [&str; 4] = ["version", "CID", "parentCID", "createType"];

/// A sound text.
pub fn sound(rng: &mut Rng) -> Text {
    let count = match rng.below(10) {
        0 => 32,
        1 => 31,
        2 => rng.within(2, 32),
        _ => rng.within(1, 3),
    };
    let mut extents = Vec::new();
    let mut left = 1 << 31;
    for number in 0..count {
        let after = count - number - 1;
        let sectors = match rng.below(4) {
            0 if after == 0 => left,
            0 => rng.within(1, (left - after) / 2 + 1),
            1 => 1,
            _ => rng.within(1, 5000).min(left - after),
        };
        left -= sectors;
        extents.push(extent(rng, sectors));
    }
    rng.shuffle(&mut extents);
    with_extents(rng, extents)
}

/// A sound text with these extent lines, in this order, anywhere among the other lines.
pub fn with_extents(rng: &mut Rng, extents: Vec<Vec<u8>>) -> Text {
    let mut places: Vec<Option<Vec<u8>>> = vec![None; extents.len()];
    places.extend(KEYS.iter().map(|key| Some(required(rng, key))));
    for _ in 0..rng.below(6) {
        places.push(Some(skipped(rng)));
    }
    rng.shuffle(&mut places);
    let mut extents = extents.into_iter();
    let filled = places
        .into_iter()
        .filter_map(|line| line.or_else(|| extents.next()));
    let mut lines: Vec<Vec<u8>> = filled.collect();
    lines.insert(0, padded(rng, "# Disk DescriptorFile", true));
    for _ in 0..rng.pick(&[0, 0, 1, 3]) {
        let empty = padding(rng);
        lines.insert(0, empty);
    }
    let zeros = rng.pick(&[0, 0, 1, 40, 511]);
    Text {
        lines,
        tail: vec![0; zeros],
        ended: !rng.one_in(3),
    }
}

/// A word in any case.
pub fn cased(rng: &mut Rng, word: &str) -> Vec<u8> {
    let style = rng.below(4);
    let mut bytes = word.as_bytes().to_vec();
    for byte in &mut bytes {
        if style == 1 || (style == 3 && rng.one_in(2)) {
            byte.make_ascii_uppercase();
        } else if style == 2 || style == 3 {
            byte.make_ascii_lowercase();
        }
    }
    bytes
}

/// What is trimmed at a line's ends, mostly nothing.
pub fn padding(rng: &mut Rng) -> Vec<u8> {
    let count = rng.pick(&[0, 0, 0, 1, 3]);
    (0..count).map(|_| rng.pick(b" \t\r")).collect()
}

/// One or more spaces or tabs.
pub fn blanks(rng: &mut Rng) -> Vec<u8> {
    let count = rng.pick(&[1, 1, 1, 2, 4]);
    (0..count).map(|_| rng.pick(b"  \t")).collect()
}

fn padded(rng: &mut Rng, words: &str, case: bool) -> Vec<u8> {
    let middle = if case {
        cased(rng, words)
    } else {
        words.as_bytes().to_vec()
    };
    [padding(rng), middle, padding(rng)].concat()
}

/// A decimal, perhaps with leading zeros up to 10 digits.
pub fn decimal(rng: &mut Rng, value: u64) -> Vec<u8> {
    let width = rng.pick(&[1, 1, 1, 4, 10]);
    format!("{value:0width$}").into_bytes()
}

/// One of the four required keys with a good value.
pub fn required(rng: &mut Rng, key: &str) -> Vec<u8> {
    let value = match key {
        "version" => {
            let version = rng.within(1, 3);
            decimal(rng, version)
        }
        "createType" => {
            let name = rng.pick(&["monolithicSparse", "", "x", "a b = c", "# \t\r\\"]);
            format!("\"{name}\"").into_bytes()
        }
        _ => {
            let digits = rng.within(1, 8);
            let digit = |rng: &mut Rng| rng.pick(b"0123456789abcdefABCDEF");
            (0..digits).map(|_| digit(rng)).collect()
        }
    };
    key_line(rng, key, value)
}

/// A line of key and value, in any spelling.
pub fn key_line(rng: &mut Rng, key: &str, value: Vec<u8>) -> Vec<u8> {
    let mut line = padding(rng);
    line.extend(cased(rng, key));
    line.extend(padding(rng));
    line.push(b'=');
    line.extend(padding(rng));
    line.extend(value);
    line.extend(padding(rng));
    line
}

/// The fields of an extent line joined by blanks.
pub fn joined(rng: &mut Rng, fields: &[Vec<u8>]) -> Vec<u8> {
    let mut line = padding(rng);
    for (index, field) in fields.iter().enumerate() {
        if index > 0 {
            line.extend(blanks(rng));
        }
        line.extend(field);
    }
    line.extend(padding(rng));
    line
}

/// A quoted name of 1 to 255 bytes.
pub fn name(rng: &mut Rng) -> Vec<u8> {
    let length = rng.pick(&[1, 2, 8, 20, 254, 255]);
    let mut name = vec![b'"'];
    for _ in 0..length {
        let byte = rng.within(1, 255) as u8;
        name.push(match byte {
            b'"' | b'\n' => b'=',
            other => other,
        });
    }
    name.push(b'"');
    name
}

/// A good extent line.
pub fn extent(rng: &mut Rng, sectors: u64) -> Vec<u8> {
    let kind = rng.pick(&["FLAT", "VMFS", "SPARSE", "VMFSSPARSE", "ZERO"]);
    let access = rng.pick(&ACCESS);
    let any = rng.below(1 << 32);
    let offset = rng.pick(&[0, 1, 63, (1 << 32) - 1, any]);
    let has_offset = kind == "FLAT" || (kind == "VMFS" && rng.one_in(2));
    extent_of(rng, access, sectors, kind, has_offset.then_some(offset))
}

/// The extent line of these numbers, in any spelling.
pub fn extent_of(
    rng: &mut Rng,
    access: &str,
    sectors: u64,
    kind: &str,
    offset: Option<u64>,
) -> Vec<u8> {
    let mut fields = vec![cased(rng, access), decimal(rng, sectors), cased(rng, kind)];
    if kind != "ZERO" {
        fields.push(name(rng));
    }
    fields.extend(offset.map(|offset| decimal(rng, offset)));
    joined(rng, &fields)
}

/// A line that says nothing: empty, a comment, or another key.
fn skipped(rng: &mut Rng) -> Vec<u8> {
    let line = rng.pick(&[
        "",
        "#",
        "# version=9",
        "#RW",
        "ddb.geometry.heads = \"16\"",
        "encoding=\"UTF-8\"",
        "RW=1",
        "RWX 1 ZERO = 2",
        "versions==",
        "a=",
        "CID2 = zz",
        "ddb.version = 9",
        "xCID=zz",
        "parent=zz",
        "createTypes=a",
        "create Type = a",
        "rw\r= 3",
        "# = =",
    ]);
    padded(rng, line, false)
}
