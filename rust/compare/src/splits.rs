//! The split on both sides: disks cut into several files, with sectors, lengths and texts at the edges.

use crate::cowd::is_cowd;
use crate::disks::Disk;
use crate::lists;
use crate::rng::Rng;
use crate::run::Run;
use crate::tally::Call;
use crate::text;
use plain::{Extent, Located};

/// By the extent's kind, from 1: the row of an answer, and that of 45; a VMFSSPARSE line has neither.
const ROWS: [(&str, &str); 5] = [
    ("from FLAT", "45, short FLAT"),
    ("from VMFS", "45, short VMFS"),
    ("from SPARSE", "45, COWD in SPARSE"),
    ("unknown", "unknown"),
    ("from ZERO", "45, ZERO with bytes"),
];

const FLAT: u64 = 1;
const VMFS: u64 = 2;
const SPARSE: u64 = 3;
const VMFSSPARSE: u64 = 4;

impl Run<'_> {
    pub fn split(&mut self, text: &[u8], files: &[u8], lengths: &[u64], sector: u64) {
        let answers = self
            .sides
            .map(|side| side.split(text, files, lengths, sector));
        let both = [&answers[0], &answers[1]];
        let words = (lengths, sector);
        self.compare(Call::Split, both, true, &[text, files], &words);
        let located = answers[1];
        self.count_located(Call::Split, located);
        let extents = plain::descriptor(text, plain::MOST_EXTENTS).1;
        match located.number {
            20 | 30..=36 => {}
            24 => self.count_lengths(files, lengths, plain::find(&extents, sector).number == 20),
            _ => {
                let own = located.layer as usize;
                let from: u64 = lengths[..own].iter().sum();
                let file = &files[from as usize..(from + lengths[own]) as usize];
                self.count_own(located, &extents[own], file, sector);
            }
        }
    }

    /// Rows of 24.
    fn count_lengths(&mut self, files: &[u8], lengths: &[u64], past: bool) {
        let exact: u128 = lengths.iter().map(|length| u128::from(*length)).sum();
        let length = files.len() as u64;
        let wraps = exact as u64 == length && exact != u128::from(length);
        for (row, holds) in [("24, sum that wraps", wraps), ("24, sector past", past)] {
            if holds {
                self.tally.answered(Call::Split, row);
            }
        }
    }

    /// Rows of a sector's own extent and file.
    fn count_own(&mut self, located: Located, extent: &Extent, file: &[u8], sector: u64) {
        let (served, short) = ROWS[extent.kind as usize - 1];
        let head = plain::header(file);
        let other = head.number == 0 && head.capacity != extent.sectors;
        let rows = [
            (served, located.number == 0),
            (
                "from the 32nd extent",
                located.number == 0 && located.layer == 31,
            ),
            (short, located.number == 45),
            (
                "1 to 12, 38 too",
                (1..=12).contains(&located.number) && other,
            ),
        ];
        for (row, holds) in rows {
            if holds {
                self.tally.answered(Call::Split, row);
            }
        }
        self.count_type(located, extent, file);
        if located.number == 8 {
            self.count_outside(Call::Split, located.place, file);
        }
        if extent.kind == SPARSE {
            self.count_source(Call::Split, located, file, sector - extent.first);
        }
    }

    /// Rows of COWD's type, whatever the file holds, and of COWD's bytes in plain sectors.
    fn count_type(&mut self, located: Located, extent: &Extent, file: &[u8]) {
        let gone = located.number == 43;
        let kdmv = file.starts_with(b"KDMV");
        let served = located.number == 0 && is_cowd(file);
        let rows = [
            ("43, COWD file", gone && is_cowd(file)),
            ("43, KDMV file", gone && kdmv),
            ("43, empty file", gone && file.is_empty()),
            (
                "43, another file",
                gone && !file.is_empty() && !kdmv && !is_cowd(file),
            ),
            (
                "39, 43 too",
                located.number == 39 && extent.kind == VMFSSPARSE,
            ),
            ("from FLAT, COWD", served && extent.kind == FLAT),
            ("from VMFS, COWD", served && extent.kind == VMFS),
        ];
        for (row, holds) in rows {
            if holds {
                self.tally.answered(Call::Split, row);
            }
        }
    }
}

/// A disk, asked for sectors; then with lengths that do not fit, and last with a text that is at fault.
pub fn case(run: &mut Run, rng: &mut Rng, which: u64) {
    let disk = Disk::choose(rng, which);
    let text = disk.text.bytes();
    for _ in 0..8 {
        run.split(&text, &disk.files, &disk.lengths, rng.pick(&disk.asked));
    }
    let mut lengths = disk.lengths.clone();
    lists::damage_lengths(rng, &mut lengths);
    for _ in 0..2 {
        run.split(&text, &disk.files, &lengths, rng.pick(&disk.asked));
    }
    for number in 0..2 {
        let text = text::damage(rng, disk.text.clone(), which * 2 + number);
        // The text's refusals come before those of its lengths.
        let lengths = if rng.one_in(2) {
            &lengths
        } else {
            &disk.lengths
        };
        run.split(&text, &disk.files, lengths, rng.pick(&disk.asked));
    }
}

/// A long image as the first of two files, plain sectors up to its end or an extent of its kind; the second is what is cut off.
pub fn ask(run: &mut Run, rng: &mut Rng, image: &[u8], capacity: u64) {
    let cut = rng.pick(&[0, 1, 512, 1 << 32]);
    let length = image.len() as u64 - cut;
    let sectors = rng.within(1, 9);
    let offset = (length / 512).saturating_sub(sectors) + rng.below(2);
    let (kind, sectors, offset) = rng.pick(&[
        ("FLAT", sectors, Some(offset)),
        ("VMFS", sectors, Some(offset)),
        ("SPARSE", capacity, None),
        ("VMFSSPARSE", capacity, None),
    ]);
    let second = (cut / 512).max(1);
    let lines = vec![
        text::extent_of(rng, "RW", sectors, kind, offset),
        text::extent_of(rng, "RW", second, "VMFS", None),
    ];
    let text = text::with_extents(rng, lines).bytes();
    for sector in [rng.below(sectors), sectors, sectors + second - 1] {
        run.split(&text, image, &[length, cut], sector);
    }
}
