//! Mistakes about COWD among several images: the layers of a chain, the two of a collapse, those of a survey.

use super::{moved, Mistake, Mistake::*};
use compare::cowd::is_cowd;
use compare::side::{Plain, Side};
use compare::tally::Call::{Collapse, Survey};
use plain::{Located, Surveyed, Written, ABSENT};

impl Mistake {
    /// A chain of which a layer's header is refused.
    pub fn chain(self, plain: Located, layers: &[&[u8]], sector: u64) -> Located {
        let named = plain.layer as usize;
        match (self, plain.number) {
            (PassedOver, 43) => passed_over(plain, layers, sector),
            (NotNamed, 43) => Located { layer: 0, ..plain },
            (BaseLetThrough, 43) if named == 0 => with_moved(plain, layers, 0, sector),
            (LetThrough, 43) => with_moved(plain, layers, named, sector),
            (FromTheBase, _) => from_the_base(plain, layers),
            (WhereMet, 43) => where_met(plain, &layers[named + 1..], sector),
            _ => self.lookup(plain, layers[named], sector),
        }
    }

    pub fn collapse(self, plain: Written, layers: [&[u8]; 2], out: &mut [u8]) -> Written {
        let taken = match self {
            LetThrough => [true, true],
            LowerLetThrough => [true, false],
            UpperLetThrough => [false, true],
            _ => [false, false],
        };
        let [lower, upper] = [0, 1].map(|layer: usize| match taken[layer] {
            true => moved(layers[layer]),
            false => None,
        });
        if lower.is_some() || upper.is_some() {
            let [lower, upper] = [lower, upper].map(Option::unwrap_or_default);
            let seen = |moved: &'_ [u8], layer: usize| match moved.is_empty() {
                true => layers[layer].to_vec(),
                false => moved.to_vec(),
            };
            return Plain.collapse(&seen(&lower, 0), &seen(&upper, 1), out);
        }
        let refused = |image: &&[u8]| Plain.check(image).number == plain.number;
        let layer = layers.into_iter().find(refused).unwrap_or_default();
        let [number, place] = self.judge(Collapse, [plain.number, plain.place], layer);
        Written {
            number,
            place,
            ..plain
        }
    }

    /// Rows and tally of a survey that was not refused; `held` is what they held before.
    pub fn survey(
        self,
        plain: Surveyed,
        images: &[&[u8]],
        rows: &mut [u64],
        tally: &mut [u64],
        held: &[Vec<u64>; 2],
    ) -> Surveyed {
        if self == NoSurvey && tally[42] > 0 {
            rows.copy_from_slice(&held[0]);
            tally.copy_from_slice(&held[1]);
            return Surveyed {
                number: 43,
                ..Surveyed::default()
            };
        }
        if self == NotTallied {
            tally[42] = 0;
        }
        for (image, row) in images.iter().zip(rows.chunks_mut(6)) {
            let [number, place] = match self {
                NotInItsRow | LetThrough if row[4] == 43 => [0, 0],
                _ => self.judge(Survey, [row[4], row[5]], image),
            };
            row[4..].copy_from_slice(&[number, place]);
        }
        plain
    }
}

fn asked(layers: &[&[u8]], sector: u64) -> Located {
    let lengths: Vec<u64> = layers.iter().map(|layer| layer.len() as u64).collect();
    Plain.chain(&layers.concat(), &lengths, sector)
}

/// The chain of the layers that are not COWD, if there is one.
fn passed_over(plain: Located, layers: &[&[u8]], sector: u64) -> Located {
    let numbered = (0..).zip(layers).filter(|(_, layer)| !is_cowd(layer));
    let (numbers, left): (Vec<u64>, Vec<&[u8]>) = numbered.unzip();
    if left.is_empty() {
        return plain;
    }
    let located = asked(&left, sector);
    Located {
        layer: numbers[located.layer as usize],
        ..located
    }
}

/// The chain with the KDMV image of a COWD layer in its place.
fn with_moved(plain: Located, layers: &[&[u8]], at: usize, sector: u64) -> Located {
    let moved = match moved(layers[at]) {
        Some(moved) => moved,
        None => return plain,
    };
    let mut layers = layers.to_vec();
    layers[at] = &moved;
    asked(&layers, sector)
}

/// The first refused header from the base on.
fn from_the_base(plain: Located, layers: &[&[u8]]) -> Located {
    let numbers = layers.iter().map(|layer| Plain.header(layer).number);
    let mut refused = (0..).zip(numbers).filter(|(_, number)| *number != 0);
    let (layer, number) = refused.next().unwrap_or((plain.layer, plain.number));
    Located {
        number,
        layer,
        ..plain
    }
}

/// What the layers over the COWD one serve, if they do.
fn where_met(plain: Located, over: &[&[u8]], sector: u64) -> Located {
    let located = match over {
        [] => return plain,
        _ => asked(over, sector),
    };
    match (located.number, located.kind) {
        (0, ABSENT) => plain,
        (0 | 8..=10, _) => Located {
            layer: located.layer + plain.layer + 1,
            ..located
        },
        _ => located,
    }
}
