//! The dirty number of the samples: no program that wrote one left it set (docs/COMPARED.md).

use super::{bytes, refused};
use crate::disk::path;
use anhkhovet::{header, to_kdmv};
use std::fs;

#[test]
fn none_was_still_open() {
    let mut images = 0;
    for entry in fs::read_dir(path("")).unwrap() {
        let name = entry.unwrap().file_name().into_string().unwrap();
        if !name.ends_with(".vmdk") {
            continue;
        }
        // Some are texts, and one is COWD.
        if let Ok(header) = header(&bytes(&name)) {
            assert_eq!(header.dirty, 0, "{name}");
            images += 1;
        }
    }
    assert_eq!(images, 18);
    // A move refuses it for the want of room, which comes after 27.
    let old = to_kdmv(&bytes("cowd-s001.vmdk"), &mut []);
    assert_eq!(old, refused(21));
}
