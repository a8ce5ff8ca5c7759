//! Version and flag 0x4, by which an entry of 1 means zeros or file sector 1: in what qemu-img wrote, and in a damaged copy.

use super::{bytes, refused, DISKS};
use anhkhovet::{check, lookup, survey, Disk, Source};

const VERSION: usize = 4;
const FLAGS: usize = 8;
/// Entry 2 of the two tables that qemu-img's images have, at sectors 22 and 27.
const ENTRIES: [usize; 2] = [22 * 512 + 8, 27 * 512 + 8];

fn number(image: &[u8], at: usize) -> u32 {
    u32::from_le_bytes(image[at..at + 4].try_into().unwrap())
}

fn put(image: &mut [u8], at: usize, value: u32) {
    image[at..at + 4].copy_from_slice(&value.to_le_bytes());
}

/// qemu-img writes version 2 and flag 0x4 where grains may be marked zero; its other images have neither, and no grain of
/// theirs is zero. All are accepted.
#[test]
fn zeros_by_version_and_flag() {
    let mut zeroed = Vec::new();
    for (name, _, _) in DISKS {
        let image = bytes(&format!("{name}.vmdk"));
        let told = survey(&image, &[image.len() as u64]).unwrap();
        let counts = told.rows[0].unwrap();
        let marked = number(&image, FLAGS) & 0x4 != 0;
        assert_eq!(number(&image, VERSION) == 2, marked, "{name}");
        assert!(marked || counts.zero == 0, "{name}");
        if counts.zero > 0 {
            zeroed.push(name);
        }
    }
    assert_eq!(
        zeroed,
        [
            "zeroed-grain-data",
            "chain-middle",
            "tool-middle",
            "tool-top"
        ]
    );
}

/// The instructor's story: an image of version 1 whose tables have a 1. It is sector 1, where the descriptor stands, and no
/// grain of zeros; version 2 alone changes nothing, and the flag is refused in version 1.
#[test]
fn a_damaged_table() {
    let mut image = bytes("tool-base.vmdk");
    for at in ENTRIES {
        put(&mut image, at, 1);
    }
    assert_eq!(number(&image, VERSION), 1);
    assert_eq!(check(&image), refused(12));
    assert_eq!(lookup(&image, 300), Ok(Source::Stored { sector: 45 }));

    put(&mut image, VERSION, 2);
    assert_eq!(check(&image), refused(12));
    assert_eq!(lookup(&image, 300), Ok(Source::Stored { sector: 45 }));

    put(&mut image, FLAGS, 7);
    let disk = Disk {
        capacity: 2048,
        grain_size: 128,
    };
    assert_eq!(check(&image), Ok(disk));
    assert_eq!(lookup(&image, 300), Ok(Source::Zero));

    put(&mut image, VERSION, 1);
    assert_eq!(check(&image), refused(5));
    assert_eq!(lookup(&image, 300), refused(5));
}
