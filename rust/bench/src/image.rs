//! Images to measure on: header, descriptor of 20 sectors or none, directory, tables, then grains back to back.

use compare::rng::Rng;
use std::fs::File;
use std::io;
use std::os::unix::fs::FileExt;

pub const SECTOR: u64 = 512;
pub const GRAIN: u64 = 128;
const GRAIN_BYTES: usize = (GRAIN * SECTOR) as usize;
const TABLE: u64 = 512;
const DESCRIPTOR_SECTORS: u64 = 20;
/// Every base has it, so that every delta can name it.
const CID: &str = "12345678";

/// What an image is like.
#[derive(Clone, Copy, PartialEq)]
enum Form {
    /// With a descriptor that qemu-img takes.
    Described,
    /// The same with a redundant directory.
    Copied,
    /// As the lab profile has it.
    Published,
}

pub struct Image {
    /// Header, descriptor and directory, or both directories.
    front: Vec<u8>,
    /// The entries of all tables, which stand back to back.
    entries: Vec<u32>,
    /// The tables stand there once more, right after: those of the redundant directory.
    copied: bool,
    stored: u64,
    first_grain: u64,
}

impl Image {
    /// An image that stores the grains that `holds` says, in virtual order; the others are absent. Its descriptor is one that
    /// qemu-img takes, with its own name and its parent's.
    pub fn new(
        capacity: u64,
        name: &str,
        parent: Option<&str>,
        holds: impl FnMut(u64) -> bool,
    ) -> Image {
        Image::build(capacity, name, parent, Form::Described, holds)
    }

    /// The same with a redundant directory.
    pub fn copied(capacity: u64, name: &str, holds: impl FnMut(u64) -> bool) -> Image {
        Image::build(capacity, name, None, Form::Copied, holds)
    }

    /// One that meets the lab profile, if capacity is a multiple of the grain size.
    pub fn published(capacity: u64, holds: impl FnMut(u64) -> bool) -> Image {
        Image::build(capacity, "", None, Form::Published, holds)
    }

    fn build(
        capacity: u64,
        name: &str,
        parent: Option<&str>,
        form: Form,
        mut holds: impl FnMut(u64) -> bool,
    ) -> Image {
        let copied = form == Form::Copied;
        let described = form != Form::Published;
        let times = 1 + u64::from(copied);
        let grains = up(capacity, GRAIN);
        let tables = up(grains, TABLE);
        let directory = 1 + if described { DESCRIPTOR_SECTORS } else { 0 };
        let directory_sectors = up(tables * 4, SECTOR);
        let first_table = directory + times * directory_sectors;
        let first_grain = up(first_table + times * tables * 4, GRAIN) * GRAIN;

        let mut front = vec![0; (first_table * SECTOR) as usize];
        front[..4].copy_from_slice(b"KDMV");
        put(&mut front, 4, 4, if described { 1 } else { 2 });
        put(&mut front, 8, 4, if described { 1 } else { 5 });
        put(&mut front, 12, 8, capacity);
        put(&mut front, 20, 8, GRAIN);
        put(&mut front, 44, 4, TABLE);
        put(&mut front, 56, 8, directory);
        put(&mut front, 64, 8, first_grain);
        front[73..77].copy_from_slice(b"\n \r\n");
        if described {
            put(&mut front, 28, 8, 1);
            put(&mut front, 36, 8, DESCRIPTOR_SECTORS);
            let text = descriptor(capacity, name, parent);
            front[512..512 + text.len()].copy_from_slice(text.as_bytes());
        }
        for table in 0..times * tables {
            let (copy, entry) = (table / tables, table % tables);
            let at = (directory + copy * directory_sectors) * SECTOR + entry * 4;
            put(&mut front, at, 4, first_table + table * 4);
        }
        if copied {
            put(&mut front, 8, 4, 3);
            put(&mut front, 48, 8, directory + directory_sectors);
        }

        let mut entries = vec![0; (tables * TABLE) as usize];
        let mut stored = 0;
        for grain in 0..grains {
            if holds(grain) {
                entries[grain as usize] = (first_grain + stored * GRAIN) as u32;
                stored += 1;
            }
        }
        Image {
            front,
            entries,
            copied,
            stored,
            first_grain,
        }
    }

    /// The same disk, of which every grain is stored, with its grains in another order.
    pub fn shuffled(mut self, rng: &mut Rng) -> Image {
        rng.shuffle(&mut self.entries[..self.stored as usize]);
        self
    }

    /// Writes a number over the entry of the last grain, in the primary tables or in their copies.
    pub fn spoil(&self, file: &File, copies: bool, grains: u64, number: u32) -> io::Result<()> {
        let first = self.front.len() + usize::from(copies) * self.entries.len() * 4;
        file.write_all_at(&number.to_le_bytes(), first as u64 + 4 * (grains - 1))
    }

    /// Where the two copies of each table begin, in bytes.
    pub fn copies(&self) -> impl Iterator<Item = (usize, usize)> {
        let (first, length) = (self.front.len(), self.entries.len() * 4);
        (0..length)
            .step_by(TABLE as usize * 4)
            .map(move |at| (first + at, first + length + at))
    }

    /// The same disk with nothing stored and no tables: its directory names none.
    pub fn without_tables(mut self) -> Image {
        let directory = ((1 + DESCRIPTOR_SECTORS) * SECTOR) as usize;
        self.front[directory..].fill(0);
        self.entries.clear();
        self.stored = 0;
        self.first_grain = self.front.len() as u64 / SECTOR;
        self
    }

    /// In bytes, exactly to the end of the last grain.
    pub fn length(&self) -> u64 {
        SECTOR * (self.first_grain + self.stored * GRAIN)
    }

    /// The sectors before its grains.
    pub fn first_grain(&self) -> u64 {
        self.first_grain
    }

    /// The bytes of a stored grain.
    pub fn grain<'a>(&self, bytes: &'a [u8], grain: u64) -> Option<&'a [u8]> {
        match self.entries[grain as usize] {
            0 => None,
            sector => {
                let at = sector as usize * SECTOR as usize;
                Some(&bytes[at..at + GRAIN_BYTES])
            }
        }
    }

    /// Writes all but the grains into a file of zeros, from byte `at` on. Zeros are left out: the file stays sparse.
    pub fn save(&self, file: &File, at: u64) -> io::Result<()> {
        file.write_all_at(&self.front, at)?;
        if self.stored > 0 {
            file.write_all_at(&self.tables(), at + self.front.len() as u64)?;
        }
        Ok(())
    }

    /// The whole image in memory, its grains filled with numbers at random.
    pub fn filled(&self, rng: &mut Rng) -> Vec<u8> {
        let mut bytes = vec![0; self.length() as usize];
        let tables = self.tables();
        let after = self.front.len() + tables.len();
        bytes[..self.front.len()].copy_from_slice(&self.front);
        bytes[self.front.len()..after].copy_from_slice(&tables);
        rng.fill(&mut bytes[(self.first_grain * SECTOR) as usize..]);
        bytes
    }

    fn tables(&self) -> Vec<u8> {
        let bytes = self.entries.iter().map(|entry| entry.to_le_bytes());
        let once: Vec<u8> = bytes.flatten().collect();
        once.repeat(1 + usize::from(self.copied))
    }
}

fn descriptor(capacity: u64, name: &str, parent: Option<&str>) -> String {
    let (parent_cid, hint) = match parent {
        Some(parent) => (CID, format!("parentFileNameHint=\"{parent}\"\n")),
        None => ("ffffffff", String::new()),
    };
    format!(
        "# Disk DescriptorFile\nversion=1\nCID={CID}\nparentCID={parent_cid}\ncreateType=\"monolithicSparse\"\n{hint}\
         \nRW {capacity} SPARSE \"{name}\"\n"
    )
}

/// `a / b`, rounded up.
pub fn up(a: u64, b: u64) -> u64 {
    (a + b - 1) / b
}

fn put(bytes: &mut [u8], at: u64, size: usize, value: u64) {
    let at = at as usize;
    bytes[at..at + size].copy_from_slice(&value.to_le_bytes()[..size]);
}

#[cfg(test)]
mod tests {
    use super::*;

    #[test]
    fn accepted_and_served_as_asked() {
        let capacity = 200 * 1000;
        let image = Image::new(capacity, "a.vmdk", None, |grain| grain % 3 == 1);
        let bytes = image.filled(&mut Rng::new(1, 0));
        let verdict = plain::check(&bytes);
        assert_eq!((verdict.number, verdict.capacity), (0, capacity));
        for grain in 0..up(capacity, GRAIN) {
            let located = plain::lookup(&bytes, grain * GRAIN);
            assert_eq!(located.kind == plain::STORED, grain % 3 == 1);
            let at = (located.sector * SECTOR) as usize;
            let stored = image.grain(&bytes, grain).map(<[u8]>::as_ptr);
            assert_eq!(stored, (grain % 3 == 1).then(|| bytes[at..].as_ptr()));
        }
        let text = &bytes[512..512 * 21];
        assert_eq!(plain::descriptor(text, 1).0.number, 0);
    }

    #[test]
    fn published_images_meet_the_profile() {
        let capacity = 1000 * GRAIN;
        let image = Image::published(capacity, |grain| grain % 3 == 1);
        let bytes = image.filled(&mut Rng::new(1, 0));
        let verdict = plain::profile(&bytes);
        assert_eq!((verdict.number, verdict.capacity), (0, capacity));
    }

    #[test]
    fn the_file_is_the_image_without_its_grains() -> io::Result<()> {
        let folder = crate::folder::Folder::new(&std::env::temp_dir())?;
        let image = Image::new(1 << 17, "a.vmdk", Some("b.vmdk"), |_| true);
        let file = folder.create("a.vmdk", 512 + image.length())?;
        image.save(&file, 512)?;
        let bytes = std::fs::read(folder.path("a.vmdk"))?;
        let filled = image.filled(&mut Rng::new(1, 0));
        let front = (image.first_grain * SECTOR) as usize;
        assert!(bytes[512..512 + front] == filled[..front]);
        assert!(bytes[512 + front..].iter().all(|byte| *byte == 0));
        assert_eq!(plain::check(&bytes[512..]).number, 0);
        Ok(())
    }
}
