//! Disks of several files that a test writes by hand: one with all types of extents, and one whose extents are nearly all hurt.
#![allow(dead_code)]

use crate::common::Folder;
use std::fs;
use std::os::unix::fs::symlink;

/// The samples that they are made of. The first of them is COWD, and is moved for them.
pub const SAMPLES: [&str; 3] = ["cowd-s001.vmdk", "tool-base.vmdk", "tool-packed.vmdk"];

/// The sectors of the disk `all`, which has all types that are read, and those of its extents.
pub const CAPACITY: u64 = 4212;
pub const EXTENTS: [u64; 7] = [2048, 8, 4, 100, 2, 2, 2048];

const ALL: &str = "RW 2048 SPARSE \"tool-base.vmdk\"\n\
    RW 8 ZERO\n\
    RDONLY 4 FLAT \"plain\" 1\n\
    RW 100 SPARSE \"lab.vmdk\"\n\
    RW 2 VMFS \"plain\" 5\n\
    RW 2 VMFS \"link-to-plain\"\n\
    RW 2048 SPARSE \"tool-packed.vmdk\"\n";

const HURT: &str = "RW 2048 SPARSE \"tool-base.vmdk\"\n\
    NOACCESS 8 FLAT \"nobody-looks-for-it\" 0\n\
    RW 2048 SPARSE \"cowd-s001.vmdk\"\n\
    RW 100 VMFSSPARSE \"tool-base.vmdk\"\n\
    RW 4 FLAT \"plain\" 4\n\
    RW 4 VMFS \"plain\" 18\n\
    RW 2048 SPARSE \"plain\"\n\
    RW 2048 SPARSE \"cut\"\n\
    RW 2047 SPARSE \"tool-base.vmdk\"\n\
    RW 8 FLAT \"missing\" 0\n\
    RW 8 FLAT \"../plain\" 0\n\
    RW 8 FLAT \"/plain\" 0\n\
    RW 8 FLAT \"C:\\plain\" 0\n\
    RW 8 FLAT \"..\" 0\n\
    RW 8 FLAT \"folder\" 0\n\
    RW 8 FLAT \"link-out\" 0\n\
    RW 8 FLAT \"link-to-nothing\" 0\n\
    RW 1 ZERO\n";

/// One that was never moved: its COWD files are there, missing, and none.
const NEVER_MOVED: &str = "RW 8 ZERO\n\
    RW 100 VMFSSPARSE \"cowd-s001.vmdk\"\n\
    RW 100 VMFSSPARSE \"nobody-opens-it\"\n\
    RW 100 VMFSSPARSE \"tool-base.vmdk\"\n\
    NOACCESS 100 VMFSSPARSE \"nobody-opens-it\"\n\
    RW 72 FLAT \"cowd-s001.vmdk\" 0\n";

/// Adds the COWD sample, moved, to a folder that has it: 13 grains of 8 sectors, the last of them half past the capacity.
pub fn lab(folder: &Folder) {
    let old = fs::read(folder.at("cowd-s001.vmdk")).expect("a sample");
    let mut moved = vec![0; 1 << 16];
    let length = anhkhovet::to_kdmv(&old, &mut moved).expect("moved");
    fs::write(folder.at("lab.vmdk"), &moved[..length as usize]).expect("written");
}

/// Writes a descriptor with these extents.
pub fn descriptor(folder: &Folder, name: &str, extents: &str) {
    let text = format!(
        "# Disk DescriptorFile\nversion=1\nCID=1234abcd\nparentCID=ffffffff\ncreateType=\"custom\"\n{extents}"
    );
    fs::write(folder.at(name), text).expect("written");
}

/// Adds the disks `all`, `hurt` and `never-moved` to a folder that has the samples.
pub fn add(folder: &Folder) {
    let plain: Vec<u8> = (b'a'..=b'g').flat_map(|letter| [letter; 512]).collect();
    fs::write(folder.at("plain"), plain).expect("written");
    let base = fs::read(folder.at("tool-base.vmdk")).expect("a sample");
    fs::write(folder.at("cut"), &base[..base.len() - 512]).expect("written");
    fs::create_dir(folder.at("folder")).expect("a folder");
    fs::write(folder.at("folder/inside"), [b'x'; 4096]).expect("written");
    for (name, to) in [
        ("link-to-plain", "plain"),
        ("link-out", "folder/inside"),
        ("link-to-nothing", "nothing"),
    ] {
        symlink(to, folder.at(name)).expect("a link");
    }
    lab(folder);
    descriptor(folder, "all", ALL);
    descriptor(folder, "hurt", HURT);
    descriptor(folder, "never-moved", NEVER_MOVED);
    descriptor(folder, "no-access", "NOACCESS 8 ZERO\nRW 8 ZERO\n");
    descriptor(folder, "alone", "RW 8 FLAT \"plain\" 0\n");
}
