//! Small images for frame and moves: their areas stand anywhere, over one another too, and every sector is one of entries.

use super::put;
use crate::rng::Rng;

/// The numbers of an image; its grains have 8 sectors. One of them, or none, is wrong.
struct Numbers {
    cowd: bool,
    /// Version and flags: an entry of 1 is a sector or zeros.
    head: (u64, u64),
    /// F.
    f: u64,
    n: u64,
    capacity: u64,
    directory: u64,
    redundant: u64,
    /// The descriptor's sector and its sectors.
    descriptor: (u64, u64),
    stored_entries: u64,
}

pub fn anywhere(rng: &mut Rng, cowd: bool) -> Vec<u8> {
    let wrong = rng.below(12);
    let numbers = Numbers::choose(rng, cowd, wrong);
    let last = numbers.f - table_sectors(numbers.cowd);
    let mut image = vec![0; (numbers.f * 512) as usize];
    // Wherever a directory stands, its entries name tables that fit, or none.
    for entry in image.chunks_mut(4) {
        let table = rng.below(last + 1);
        let value = rng.pick(&[0, 0, 0, 1, 1, 1, last, table]);
        put(entry, 0, 4, value);
    }
    numbers.write_header(&mut image);
    if wrong == 4 {
        // An entry in use, or the first one that is not, which may be anything.
        let directory = rng.pick(&[numbers.directory, numbers.redundant.max(1)]);
        let at = directory * 512 + rng.pick(&[0, numbers.n - 1, numbers.n]) * 4;
        let value = rng.pick(&[last + 1, numbers.f, u64::from(u32::MAX)]);
        put(&mut image, at as usize, 4, value);
    }
    if !numbers.cowd && rng.one_in(4) {
        write_footer(&mut image, numbers.directory);
    } else if rng.one_in(4) {
        image.extend([0; 511]);
    }
    image
}

impl Numbers {
    /// `wrong` says which one is: the directory, the redundant one, the descriptor or the stored entries.
    fn choose(rng: &mut Rng, cowd: bool, wrong: u64) -> Numbers {
        let n = match rng.below(4) {
            // A directory that just fills a sector, or not.
            0 => rng.pick(&[127, 128, 129]),
            _ => rng.within(1, 5),
        };
        let table = if cowd { 4096 * 8 } else { 512 * 8 };
        let f = table_sectors(cowd) + rng.within(3, 40);
        let sectors = (n + 127) / 128;
        let directory = place(rng, f, sectors, wrong == 0);
        let redundant = place(rng, f, sectors, wrong == 1);
        let most = f.saturating_sub(directory) * 128;
        let entries = if wrong == 3 {
            rng.pick(&[n - 1, most + 1])
        } else {
            rng.pick(&[n, most.max(n)])
        };
        Numbers {
            cowd,
            head: rng.pick(&[(1, 0), (2, 0), (3, 0), (2, 4), (3, 4)]),
            f,
            n,
            capacity: n * table - rng.pick(&[0, 1, table - 1]),
            directory,
            redundant: rng.pick(&[0, redundant, redundant]),
            descriptor: descriptor(rng, f, wrong == 2),
            stored_entries: entries,
        }
    }

    fn write_header(&self, image: &mut [u8]) {
        if self.cowd {
            image[..4].copy_from_slice(b"COWD");
            for (at, number) in [
                (4, 1),
                (12, self.capacity),
                (16, 8),
                (20, self.directory),
                (24, self.stored_entries),
            ] {
                put(image, at, 4, number);
            }
            return;
        }
        image[..512].fill(0);
        image[..4].copy_from_slice(b"KDMV");
        put(image, 4, 4, self.head.0);
        put(image, 8, 4, self.head.1);
        put(image, 44, 4, 512);
        for (at, number) in [
            (12, self.capacity),
            (20, 8),
            (28, self.descriptor.0),
            (36, self.descriptor.1),
            (48, self.redundant),
            (56, self.directory),
        ] {
            put(image, at, 8, number);
        }
    }
}

fn table_sectors(cowd: bool) -> u64 {
    if cowd {
        32
    } else {
        4
    }
}

/// A directory's sector: the last one that fits, one before it, or a wrong one.
fn place(rng: &mut Rng, f: u64, sectors: u64, wrong: bool) -> u64 {
    let last = f - sectors;
    if wrong {
        return rng.pick(&[0, last + 1, f, u64::MAX - 1, u64::MAX]);
    }
    match rng.below(3) {
        0 => last,
        _ => rng.within(1, last),
    }
}

/// The descriptor's two numbers: both or none, up to F, or wrong ones.
fn descriptor(rng: &mut Rng, f: u64, wrong: bool) -> (u64, u64) {
    let first = rng.within(1, f - 1);
    let most = f - first;
    if wrong {
        return rng.pick(&[
            (0, 1),
            (first, 0),
            (first, most + 1),
            (first, u64::MAX),
            (first, u64::MAX - first + 1),
        ]);
    }
    rng.pick(&[(0, 0), (first, 1), (first, most)])
}

/// Makes the image a stream: packed, with its directory's sector in a footer.
fn write_footer(image: &mut [u8], directory: u64) {
    let footer = image.len() - 1024;
    // Flags 0x30000, beside those that are set.
    put(image, 10, 2, 0x3);
    put(image, 77, 2, 1);
    put(image, 56, 8, u64::MAX);
    image.copy_within(..512, footer);
    put(image, footer + 56, 8, directory);
    image[footer + 512..].fill(0);
}
