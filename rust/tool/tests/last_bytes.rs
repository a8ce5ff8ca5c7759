//! Files whose length is no multiple of a sector, and what stands in their last bytes.

mod common;

use common::{run, samples, Folder};
use std::fs;

/// The last grain's marker, and how many bytes before the end are copied with the header.
const MARKER: usize = 129 * 512;
const LAST: usize = 1536;

fn number(image: &[u8], at: usize) -> usize {
    let bytes = image[at..at + 4].try_into().expect("four bytes");
    u32::from_le_bytes(bytes) as usize
}

/// The sample with grain 0 alone, in place of its last one, in both tables: its marker begins with zeros.
fn first_grain_last() -> Vec<u8> {
    let mut image = fs::read(samples().join("tool-packed.vmdk")).expect("a sample");
    for directory in [48, 56] {
        let table = 512 * number(&image, 512 * number(&image, directory));
        image.copy_within(table + 12..table + 16, table);
        image[table + 4..table + 16].fill(0);
    }
    image[MARKER..MARKER + 8].fill(0);
    image
}

/// A marker that the last bytes hold in part is read whole, wherever the file is cut in it.
#[test]
fn half_a_marker() {
    let folder = Folder::new();
    let whole = first_grain_last();
    for within in 0..12 {
        let mut image = whole[..MARKER + within + LAST].to_vec();
        fs::write(folder.at("image"), &image).expect("written");
        run(folder.path(), &["check", "image"]).well();
        image[MARKER] = 1;
        fs::write(folder.at("image"), &image).expect("written");
        let ran = run(folder.path(), &["check", "image"]);
        assert!(ran.text().contains("refused 10 at grain 0"), "{within}");
    }
}
