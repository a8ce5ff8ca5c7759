//! Request A13 in the table: COWD images, which the moves alone take, and what else would hold where a call refuses them 43.

use crate::ones::{directories, number, one_is_zero};
use crate::run::Run;
use crate::tally::Call;
use plain::{Head, Located, Written};

/// The bytes of a COWD header.
const HEADER: usize = 2048;
/// The entries of a COWD table.
pub const PER_TABLE: u64 = 4096;

pub fn is_cowd(image: &[u8]) -> bool {
    image.starts_with(b"COWD")
}

/// What a header tells a move: the header call's answer, and of COWD, which that call refuses, its numbers read anew.
pub fn head(image: &[u8]) -> Head {
    if !is_cowd(image) || image.len() < HEADER {
        return plain::header(image);
    }
    let [version, capacity, grain_size, entries] = [4, 12, 16, 24].map(|at| number(image, at, 4));
    let sizes = (1..=1 << 31).contains(&capacity) && grain_size <= 2048;
    let sized = sizes && grain_size.is_power_of_two();
    let refused = |number| Head {
        number,
        ..Head::default()
    };
    match version {
        1 if sized && entries * PER_TABLE * grain_size >= capacity => Head {
            capacity,
            grain_size,
            dirty: number(image, 1648, 4),
            ..Head::default()
        },
        1 => refused(6),
        _ => refused(3),
    }
}

/// The sector of a grain in a COWD image that passed 8; 0 where it is absent.
pub fn grain_at(image: &[u8], grain: u64) -> u64 {
    let directory = number(image, 20, 4) * 512;
    match number(image, directory + grain / PER_TABLE * 4, 4) {
        0 => 0,
        table => number(image, table * 512 + grain % PER_TABLE * 4, 4),
    }
}

/// Whether no directory entry of an image of either kind names a table; `last` is its last grain.
pub fn has_no_table(image: &[u8], last: u64) -> bool {
    if !is_cowd(image) {
        let zeros = u64::from(one_is_zero(image));
        return directories(image)[0].iter().all(|table| *table <= zeros);
    }
    let at = number(image, 20, 4) * 512;
    (0..=last / PER_TABLE).all(|index| number(image, at + index * 4, 4) == 0)
}

/// The refusal of the check that the moves keep; number 0 where it accepts.
pub fn kept_check(image: &[u8]) -> Written {
    match plain::to_kdmv(image, &mut []) {
        refused if (1..=12).contains(&refused.number) => refused,
        _ => Written::default(),
    }
}

impl Run<'_> {
    /// Rows of a COWD image that is refused: by the moves' check, or by a call that refuses the kind.
    pub(crate) fn count_cowd(&mut self, call: Call, refused: [u64; 2], image: &[u8]) {
        if !is_cowd(image) {
            return;
        }
        let row = match refused {
            [1, _] => "1, COWD",
            [3, _] => "3, COWD",
            [6, _] => "6, COWD",
            [8, 2] => "8, COWD directory",
            [8, _] => "8, COWD table",
            [9, _] => "9, COWD",
            [12, _] => "12, COWD",
            [43, _] => match kept_check(image).number {
                0 => "43, else accepted",
                3 => "43, 3 too",
                6 => "43, 6 too",
                _ => "43, 8 to 12 too",
            },
            _ => return,
        };
        self.tally.answered(call, row);
        match (refused[0], image.len()) {
            (1, 2047) => self.tally.answered(call, "1, 2,047 bytes"),
            (43, HEADER) => self.tally.answered(call, "43, 2,048 bytes"),
            _ => {}
        }
    }

    /// The row of a COWD image that is asked for a sector past its capacity.
    pub(crate) fn count_past(&mut self, call: Call, number: u64, image: &[u8], sector: u64) {
        let head = head(image);
        if number == 43 && head.number == 0 && sector >= head.capacity {
            self.tally.answered(call, "43, 20 too");
        }
    }

    /// Rows of a chain in which a layer's header is refused, by the layers that are COWD; headers are judged from the top.
    pub(crate) fn count_layers(&mut self, located: Located, layers: &[&[u8]]) {
        let (below, named) = layers.split_at(located.layer as usize);
        let gone = located.number == 43;
        let is_gone = |image: &&[u8]| plain::header(image).number == 43;
        let faulty = |image: &&[u8]| (1..=7).contains(&plain::header(image).number);
        let several = layers.len() > 1;
        let rows = [
            ("43, base", gone && several && below.is_empty()),
            ("43, top", gone && several && named.len() == 1),
            ("43, between", gone && !below.is_empty() && named.len() > 1),
            ("43, COWD below", gone && below.iter().any(is_gone)),
            ("43, 1 to 7 below", gone && below.iter().any(faulty)),
            ("1 to 7, 43 below", !gone && below.iter().any(is_gone)),
        ];
        for (row, holds) in rows {
            if holds {
                self.tally.answered(Call::Chain, row);
            }
        }
    }

    /// Rows of a collapse of which a layer is refused 43, or would be.
    pub(crate) fn count_pair(&mut self, number: u64, lower: &[u8], upper: &[u8]) {
        let row = match [lower, upper].map(|image| plain::check(image).number) {
            [43, 43] => "43, both",
            [43, 0] => "43, lower alone",
            [0, 43] => "43, upper alone",
            [43, _] => "43, upper refused too",
            [_, 43] if number != 43 => "1 to 12, 43 too",
            _ => return,
        };
        self.tally.answered(Call::Collapse, row);
    }
}

#[cfg(test)]
mod tests {
    use super::{grain_at, head, kept_check, PER_TABLE};
    use crate::image::{build, unused, Cell, Plan, Shape};
    use crate::rng::Rng;
    use plain::{check, lookup, to_kdmv, ABSENT, STORED};
    use std::collections::BTreeSet;

    /// More than any result takes.
    const ROOM: usize = 4 << 20;

    /// Sound images pass the check that the moves keep, and what is moved serves what was built.
    #[test]
    fn sound_images_are_moved() {
        let (mut sizes, mut numbers) = (BTreeSet::new(), BTreeSet::new());
        let mut out = vec![0; ROOM];
        for case in 0..1000 {
            let rng = &mut Rng::new(14, case);
            let plan = Plan {
                cowd: true,
                most_sectors: 2100,
                ..Plan::default()
            };
            let shape = Shape::choose(rng, plan);
            let mut built = build(rng, shape.clone());
            let found = head(&built.bytes);
            let told = (found.number, found.capacity, found.grain_size, found.dirty);
            let (capacity, size) = (shape.capacity, shape.grain_size);
            assert_eq!(told, (0, capacity, size, shape.dirty), "{case}");
            assert_eq!(check(&built.bytes).number, 43, "{case}");
            assert_eq!(kept_check(&built.bytes).number, 0, "{case}: {shape:?}");
            numbers.insert(shape.dirty);
            sizes.insert(size);
            let number = match shape.dirty {
                0 if size < 8 => 44,
                0 if shape.grains() > 200_000 => continue,
                0 => 0,
                _ => 27,
            };
            assert_eq!(to_kdmv(&built.bytes, &mut out).number, number, "{case}");
            if number == 0 {
                serves(&shape, &built.bytes, &out);
            }
            unused(rng, &mut built);
            assert_eq!(kept_check(&built.bytes).number, 0, "{case}: {shape:?}");
        }
        // From 1 to 2,048; each of the four bytes of the dirty number.
        assert_eq!(sizes.len(), 12, "{sizes:?}");
        assert_eq!(numbers.len(), 1 + 3 * 4, "{numbers:?}");
    }

    fn serves(shape: &Shape, image: &[u8], moved: &[u8]) {
        for grain in 0..shape.grains().min(2 * PER_TABLE) {
            let cells = shape.tables.get(&(grain / PER_TABLE));
            let cell = cells.and_then(|cells| cells.get(&(grain % PER_TABLE)));
            let located = lookup(moved, grain * shape.grain_size);
            let kind = match cell {
                Some(Cell::Stored) => STORED,
                _ => ABSENT,
            };
            assert_eq!((located.number, located.kind), (0, kind), "{grain}");
            let from = grain_at(image, grain) as usize * 512;
            assert_eq!(from > 0, kind == STORED, "{grain}");
            let at = located.sector as usize * 512;
            assert!(from == 0 || image[from..from + 512] == moved[at..at + 512]);
        }
    }
}
