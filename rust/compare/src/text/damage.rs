//! Damage to texts, at the edges of 30 to 36.

use super::edges::{broken_extent, edge_extent, edge_key, odd_line};
use super::lines::{extent, required};
use super::Text;
use crate::rng::Rng;

/// Changes one thing and gives the text's bytes. `which` walks through the kinds of damage.
pub fn damage(rng: &mut Rng, mut text: Text, which: u64) -> Vec<u8> {
    match which % 14 {
        0 => signature(rng, &mut text),
        1 | 2 => {
            let line = edge_extent(rng);
            replace_or_add(rng, &mut text, line);
        }
        3 => {
            let line = broken_extent(rng);
            replace_or_add(rng, &mut text, line);
        }
        4 | 5 => {
            let line = edge_key(rng);
            replace_or_add(rng, &mut text, line);
        }
        6 => {
            let line = odd_line(rng);
            replace_or_add(rng, &mut text, line);
        }
        7 => {
            // Twice the same line.
            let line = text.lines[rng.index(text.lines.len())].clone();
            let at = rng.index(text.lines.len() + 1);
            text.lines.insert(at, line);
        }
        8 => {
            text.lines.remove(rng.index(text.lines.len()));
        }
        9 => extents(rng, &mut text),
        10 => return ends(rng, text),
        _ => return some_bytes(rng, text.bytes()),
    }
    text.bytes()
}

fn replace_or_add(rng: &mut Rng, text: &mut Text, line: Vec<u8>) {
    let at = rng.index(text.lines.len());
    if rng.one_in(3) {
        text.lines[at] = line;
    } else {
        text.lines.insert(at + 1, line);
    }
}

fn signature(rng: &mut Rng, text: &mut Text) {
    let line = rng.pick(&[
        "# Disk Descriptor File",
        "#Disk DescriptorFile",
        "# Disk  DescriptorFile",
        "# Disk\tDescriptorFile",
        "# Disk DescriptorFil",
        "# Disk DescriptorFiles",
        "# Disk DescriptorFile #",
        "#",
        "version=1",
        "\u{b}# Disk DescriptorFile",
    ]);
    let found = text.lines.iter().position(|line| line.contains(&b'#'));
    let at = found.unwrap_or(0);
    if rng.one_in(2) {
        text.lines.insert(at, line.as_bytes().to_vec());
    } else {
        text.lines[at] = line.as_bytes().to_vec();
    }
}

/// Numbers and sums of extents: none, 32, 33, and sums about 2^31.
fn extents(rng: &mut Rng, text: &mut Text) {
    let is_extent = |line: &Vec<u8>| {
        let line = String::from_utf8_lossy(line).trim_start().to_uppercase();
        [
            "RW ",
            "RDONLY ",
            "NOACCESS ",
            "RW\t",
            "RDONLY\t",
            "NOACCESS\t",
        ]
        .iter()
        .any(|start| line.starts_with(start))
    };
    text.lines.retain(|line| !is_extent(line));
    let half = 1 << 30;
    let sectors: Vec<u64> = match rng.below(6) {
        0 => Vec::new(),
        1 => vec![1; 32],
        2 => vec![1; 33],
        3 => vec![half, half],
        4 => vec![half, half, 1],
        _ => vec![2 * half; rng.pick(&[2, 3, 33])],
    };
    for count in sectors {
        let line = extent(rng, count);
        text.lines.push(line);
    }
    if rng.one_in(6) {
        // A missing key comes before 35.
        text.lines.retain(|line| !line.starts_with(b"CID"));
    }
    if rng.one_in(6) {
        let line = required(rng, "version");
        text.lines.push(line);
    }
}

/// Ends of texts: zero bytes, what follows them, and the longest text.
fn ends(rng: &mut Rng, mut text: Text) -> Vec<u8> {
    match rng.below(6) {
        0 => text.tail = rng.pick(&["\0x", "\0\0\0\n", "\0 ", "\0\0\0\0#"]).into(),
        1 => {
            let at = rng.index(text.lines.len());
            text.lines[at].push(0);
        }
        _ => {
            let length = rng.pick(&[65_535, 65_536, 65_537, 66_000]);
            let mut bytes = text.bytes();
            if rng.one_in(2) {
                bytes.resize(length, 0);
            } else if rng.one_in(2) && text.tail.is_empty() {
                // One long comment, and perhaps a fault at the very end.
                bytes.extend(b"\n#");
                bytes.resize(length, rng.pick(b"# =\""));
                if rng.one_in(2) {
                    bytes[length - 2..].copy_from_slice(b"\nx");
                }
            } else {
                bytes.resize(length, 0);
                bytes[length - 1] = rng.pick(&[0, 1, b'\n', b' ']);
            }
            return bytes;
        }
    }
    text.bytes()
}

/// One to three bytes changed, put in or taken out.
fn some_bytes(rng: &mut Rng, mut bytes: Vec<u8>) -> Vec<u8> {
    for _ in 0..rng.within(1, 3) {
        if bytes.is_empty() {
            return bytes;
        }
        let at = rng.index(bytes.len());
        let any = rng.any() as u8;
        let new = rng.pick(&[
            b'"', b'=', b' ', b'\t', b'\r', b'\n', 0, b'#', b'0', b'1', b'a', b'R', any,
        ]);
        match rng.below(4) {
            0 => bytes.insert(at, new),
            1 => {
                bytes.remove(at);
            }
            2 => bytes[at] = new,
            _ => bytes.truncate(at),
        }
    }
    bytes
}
