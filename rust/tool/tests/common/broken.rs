//! Streams that broke off, cut from a real one: its overhead is 128, and its grains stand at 128, 130, 132 and 134.
#![allow(dead_code)]

use crate::common::{sample, Folder};
use std::fs;

pub const SECTOR: usize = 512;

pub fn stream() -> Vec<u8> {
    fs::read(sample("vmdkstream.vmdk")).expect("a sample")
}

/// The stream with a few bytes of its header changed.
fn changed(changes: &[(usize, u8)]) -> Vec<u8> {
    let mut bytes = stream();
    for (at, byte) in changes {
        bytes[*at] = *byte;
    }
    bytes
}

/// Adds streams cut in a grain, before the first one, in the header's sectors and in the footer, and some that cannot be closed.
pub fn add(folder: &Folder) {
    let whole = stream();
    let write = |name: &str, bytes: &[u8]| fs::write(folder.at(name), bytes).expect("written");
    write("broken", &whole[..132 * SECTOR + 100]);
    write("broken-first", &whole[..129 * SECTOR]);
    write("broken-before", &whole[..100 * SECTOR]);
    write("broken-footer", &whole[..whole.len() - 100]);
    write("broken-open", &changed(&[(72, 1)])[..133 * SECTOR]);
    write("two-directories", &changed(&[(48, 1)]));
    write("overhead-1", &changed(&[(64, 1)]));
    write("broken-described", &changed(&[(36, 0)]));
}
