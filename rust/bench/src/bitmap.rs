//! A rival for the check: what a Rust program with a heap would do, a bit for each sector of the file, in one pass.
//!
//! It knows no packed grains, no redundant directory, no footer and no COWD, and gives no refusal numbers.

/// Capacity and grain size of an image in which every area lies below the file's end and no sector lies in two. Each call has a
/// new bitmap.
pub fn check(image: &[u8]) -> Option<(u64, u64)> {
    marked(image, &mut vec![0; words(image)])
}

/// The same in a bitmap that is lent, and cleared first.
pub fn check_in(image: &[u8], words: &mut [u64]) -> Option<(u64, u64)> {
    words.fill(0);
    marked(image, words)
}

/// The words of a bitmap, for every 64 sectors one.
pub fn words(image: &[u8]) -> usize {
    (image.len() / 512 + 63) / 64
}

/// In words that are 0.
fn marked(image: &[u8], words: &mut [u64]) -> Option<(u64, u64)> {
    let header = image.get(..512)?;
    let capacity = number64(header, 12);
    let grain_size = number64(header, 20);
    let known = &header[..4] == b"KDMV"
        && (1..=3).contains(&number32(header, 4))
        && number32(header, 8) & !7 == 0
        && (1..=1 << 31).contains(&capacity)
        && (8..=2048).contains(&grain_size)
        && grain_size.is_power_of_two()
        && number32(header, 44) == 512
        && &header[73..77] == b"\n \r\n";
    if !known {
        return None;
    }
    // The lowest entry that is a sector.
    let zeroed = number32(header, 4) > 1 && number32(header, 8) & 4 != 0;
    let least = if zeroed { 2 } else { 1 };
    let grains = (capacity + grain_size - 1) / grain_size;
    let tables = (grains + 511) / 512;

    let sectors = image.len() as u64 / 512;
    let mut marks = Marks { words, sectors };
    marks.mark(0, 1)?;
    marks.mark(number64(header, 28), number64(header, 36))?;
    let directory = number64(header, 56);
    marks.mark(directory, (tables * 4 + 511) / 512)?;
    let mut left = grains;
    for table in entries(image, directory, tables) {
        let used = left.min(512);
        left -= used;
        if table < least {
            continue;
        }
        marks.mark(table, 4)?;
        for grain in entries(image, table, used) {
            if grain >= least {
                marks.mark(grain, grain_size)?;
            }
        }
    }
    Some((capacity, grain_size))
}

/// The first `count` entries from a sector on that was marked, so that it lies in the file.
fn entries(image: &[u8], sector: u64, count: u64) -> impl Iterator<Item = u64> + '_ {
    let at = sector as usize * 512;
    let bytes = &image[at..at + count as usize * 4];
    bytes.chunks_exact(4).map(|entry| number32(entry, 0))
}

fn number32(bytes: &[u8], at: usize) -> u64 {
    let bytes = [bytes[at], bytes[at + 1], bytes[at + 2], bytes[at + 3]];
    u64::from(u32::from_le_bytes(bytes))
}

fn number64(bytes: &[u8], at: usize) -> u64 {
    number32(bytes, at) | number32(bytes, at + 4) << 32
}

struct Marks<'a> {
    words: &'a mut [u64],
    sectors: u64,
}

impl Marks<'_> {
    /// Marks a run of sectors; nothing where it is empty, runs past the end or meets a mark. Nothing here wraps: the sums say
    /// so because the workspace tests sums in release builds too, and this rival is to run as others build theirs.
    fn mark(&mut self, first: u64, count: u64) -> Option<()> {
        let end = first.wrapping_add(count);
        if end > self.sectors || end <= first {
            return None;
        }
        let last = end.wrapping_sub(1);
        let low = u64::MAX << (first % 64);
        let high = u64::MAX >> (63 - last % 64);
        let words = &mut self.words[(first / 64) as usize..=(last / 64) as usize];
        match words {
            [word] => set(word, low & high),
            [start, between @ .., end] => {
                set(start, low)?;
                for word in between {
                    set(word, u64::MAX)?;
                }
                set(end, high)
            }
            [] => None,
        }
    }
}

fn set(word: &mut u64, bits: u64) -> Option<()> {
    let free = *word & bits == 0;
    *word |= bits;
    free.then_some(())
}

#[cfg(test)]
mod tests {
    use super::{check, check_in, words};
    use crate::image::{Image, GRAIN};
    use compare::rng::Rng;

    #[test]
    fn agrees_with_the_plain_check_on_moved_grains() {
        let capacity = 70 * GRAIN - 3;
        let image = Image::new(capacity, "a.vmdk", None, |grain| grain % 2 == 0);
        let sound = image.filled(&mut Rng::new(3, 0));
        assert_eq!(check(&sound), Some((capacity, GRAIN)));

        let mut rng = Rng::new(3, 1);
        let mut refused = 0;
        let mut lent = vec![u64::MAX; words(&sound)];
        for _ in 0..300 {
            let mut bytes = sound.clone();
            let sectors = bytes.len() as u64 / 512;
            let entry = rng.below(sectors + 2) as u32;
            let at = 22 * 512 + 4 * rng.index(72);
            bytes[at..at + 4].copy_from_slice(&entry.to_le_bytes());
            let verdict = plain::check(&bytes);
            assert_eq!(check(&bytes).is_some(), verdict.number == 0, "{verdict:?}");
            assert_eq!(check_in(&bytes, &mut lent), check(&bytes));
            refused += u64::from(verdict.number != 0);
        }
        assert!((1..300).contains(&refused), "{refused}");
    }
}
