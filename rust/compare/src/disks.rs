//! Disks cut into several files: a descriptor with extents of every type, and a file for each of them.

use crate::cases::made;
use crate::image::{size, Plan};
use crate::rng::Rng;
use crate::text::{self, Text};

/// The most sectors of a disk.
const MOST: u64 = 1 << 31;

/// A sound text with its extents' files, which are sound or not.
pub struct Disk {
    pub text: Text,
    /// End to end.
    pub files: Vec<u8>,
    pub lengths: Vec<u64>,
    /// Virtual sectors worth asking for: at the edges of extents and grains, and past the last one.
    pub asked: Vec<u64>,
}

impl Disk {
    pub fn choose(rng: &mut Rng, which: u64) -> Disk {
        let count = if rng.one_in(12) { 32 } else { rng.within(1, 6) };
        let (mut lines, mut files, mut lengths) = (Vec::new(), Vec::new(), Vec::new());
        let (mut asked, mut first) = (Vec::new(), 0);
        for number in 0..count {
            let after = count - number - 1;
            let left = MOST - first - after;
            // Only the last extent can take all that is left.
            let most = if after == 0 { left } else { left / 8 + 1 };
            let cut = Cut::choose(rng, most, which + number);
            lines.push(cut.line(rng));
            lengths.push(cut.file.len() as u64);
            files.extend(&cut.file);
            asked.extend([first, first + cut.sectors - 1]);
            asked.extend(cut.asked.iter().map(|inside| first + inside));
            first += cut.sectors;
        }
        // Else the last of many would seldom be asked for.
        asked.extend(vec![first - 1; count as usize / 4]);
        asked.extend([first, rng.pick(&[first + 1, 1 << 32, u64::MAX])]);
        Disk {
            text: text::with_extents(rng, lines),
            files,
            lengths,
            asked,
        }
    }
}

/// What an extent's line says, and its file.
struct Cut {
    kind: &'static str,
    sectors: u64,
    offset: Option<u64>,
    file: Vec<u8>,
    /// Sectors worth asking for, from the extent's first.
    asked: Vec<u64>,
}

impl Cut {
    /// An extent of at most `most` sectors.
    fn choose(rng: &mut Rng, most: u64, which: u64) -> Cut {
        match rng.below(10) {
            0..=4 => {
                let cowd = rng.one_in(10);
                Cut::image(rng, cowd, most, which)
            }
            5 => Cut::gone(rng, most, which),
            6 => Cut::sectors(rng, "FLAT", most),
            7 | 8 => Cut::sectors(rng, "VMFS", most),
            _ => Cut::zeros(rng, most),
        }
    }

    fn line(&self, rng: &mut Rng) -> Vec<u8> {
        let access = rng.pick(&["RW", "RW", "RW", "RDONLY", "RDONLY", "RDONLY", "NOACCESS"]);
        text::extent_of(rng, access, self.sectors, self.kind, self.offset)
    }

    /// COWD's type, whatever the file holds: an image of either kind, other bytes or none.
    fn gone(rng: &mut Rng, most: u64, which: u64) -> Cut {
        let cowd = rng.one_in(2);
        let mut cut = Cut::image(rng, cowd, most, which);
        if rng.one_in(3) {
            few_or_other(rng, &mut cut.file);
        }
        Cut {
            kind: "VMFSSPARSE",
            ..cut
        }
    }

    /// An image: sound, damaged, of no kind or of another capacity, and KDMV or not.
    fn image(rng: &mut Rng, cowd: bool, most: u64, which: u64) -> Cut {
        let fault = rng.below(18);
        let packed = rng.one_in(3);
        let (capacity, grain_size) = size(rng, cowd, packed);
        let plan = Plan {
            cowd,
            packed: Some(packed),
            size: Some((capacity.min(most), grain_size)),
            most_sectors: 40,
            ..Plan::default()
        };
        // Half of the numbers that an image is refused for are its header's, which damage 0 is done to; 8 has five places.
        let which = match rng.below(6) {
            0 | 1 => 0,
            2 => 5,
            _ => which,
        };
        let mut built = made(rng, plan, which, u64::from(fault < 9));
        let mut sectors = built.shape.capacity;
        match fault {
            // Four bytes are enough to tell.
            0..=3 if cowd => built.bytes.truncate(rng.pick(&[4, 511])),
            // 8 is damaged too: the image's own numbers come first.
            8 | 9 => sectors = rng.pick(&[sectors - 1, sectors + 1]).clamp(1, most),
            10 => few_or_other(rng, &mut built.bytes),
            _ => {}
        }
        built.asked.retain(|asked| *asked < sectors);
        // What is stored stands last.
        let (all, stored) = (&built.asked, &built.asked[built.asked.len() / 2..]);
        let asked = [all, all, stored, stored, stored].map(|those| rng.pick(those));
        Cut {
            kind: "SPARSE",
            sectors,
            offset: None,
            file: built.bytes,
            asked: asked.to_vec(),
        }
    }

    /// Plain sectors from an offset on: a file that just holds them, a longer one or a shorter one.
    fn sectors(rng: &mut Rng, kind: &'static str, most: u64) -> Cut {
        let sectors = few_or_many(rng, most);
        let small = rng.within(1, 9);
        let large = (1 << 32) - sectors.min(small);
        let offset = rng.pick(&[0, 1, small, small, 512, large]);
        let offset = (kind == "FLAT" || rng.one_in(2)).then_some(offset);
        let start = offset.unwrap_or(0);
        let needed = (start + sectors) * 512;
        let length = match rng.below(10) {
            0..=3 => needed,
            4 => needed + rng.within(1, 511),
            5 => needed + 512,
            6 => needed - 1,
            7 => needed - 512,
            // The offset forgotten, or taken for bytes.
            _ => rng.pick(&[sectors * 512, start + sectors * 512, start * 512, 0]),
        };
        let mut file = vec![0; length.min(1 << 19) as usize];
        // A magic says nothing here.
        let magic = rng.pick(&[b"KDMV", b"COWD", b"none"]);
        file.iter_mut()
            .zip(magic)
            .for_each(|(to, from)| *to = *from);
        Cut {
            kind,
            sectors,
            offset,
            file,
            asked: vec![rng.below(sectors)],
        }
    }

    fn zeros(rng: &mut Rng, most: u64) -> Cut {
        let sectors = few_or_many(rng, most);
        let bytes = rng.pick(&[0, 0, 0, 1, 512]);
        Cut {
            kind: "ZERO",
            sectors,
            offset: None,
            file: vec![0; bytes],
            asked: vec![rng.below(sectors)],
        }
    }
}

/// Sectors of an extent that is no image; seldom as many as there may be.
fn few_or_many(rng: &mut Rng, most: u64) -> u64 {
    match rng.below(16) {
        0 => most,
        1 => rng.within(1, most),
        _ => rng.within(1, 20).min(most),
    }
}

/// A file of too few bytes, or whose magic is that of no kind.
fn few_or_other(rng: &mut Rng, file: &mut Vec<u8>) {
    if rng.one_in(2) {
        file.truncate(rng.pick(&[0, 1, 3, 4, 511]));
    } else if let Some(magic) = file.get_mut(..4) {
        magic[rng.index(4)].make_ascii_lowercase();
    }
}
