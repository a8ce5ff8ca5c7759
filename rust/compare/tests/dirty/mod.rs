//! Mistakes about the dirty number: each is the plain side on clean copies, or another answer of it.

use compare::side::{Plain, Side};
use plain::{Head, Located, Verdict, Written};

#[derive(Clone, Copy, Debug, PartialEq)]
pub enum Mistake {
    NeverAsked,
    OnlyOneIsDirty,
    LowestBitOnly,
    LowerNotAsked,
    UpperNotAsked,
    BeforeTheChecks,
    Before23,
    Before22,
    After21,
    WrittenAndRefused,
    CheckRefuses,
    LookupRefuses,
    NumberDropped,
    NumberAsYesOrNo,
    NumberOnRefusal,
}

use Mistake::*;

pub const ALL: [Mistake; 15] = [
    NeverAsked,
    OnlyOneIsDirty,
    LowestBitOnly,
    LowerNotAsked,
    UpperNotAsked,
    BeforeTheChecks,
    Before23,
    Before22,
    After21,
    WrittenAndRefused,
    CheckRefuses,
    LookupRefuses,
    NumberDropped,
    NumberAsYesOrNo,
    NumberOnRefusal,
];

impl Mistake {
    pub fn check(self, verdict: Verdict, image: &[u8]) -> Verdict {
        if self == CheckRefuses && verdict.number == 0 && is_dirty(image) {
            return Verdict {
                number: 27,
                ..Verdict::default()
            };
        }
        verdict
    }

    pub fn lookup(self, located: Located, image: &[u8]) -> Located {
        if self == LookupRefuses && located.number == 0 && is_dirty(image) {
            return Located {
                number: 27,
                ..Located::default()
            };
        }
        located
    }

    pub fn header(self, head: Head, image: &[u8]) -> Head {
        let dirty = match (self, head.number) {
            (NumberDropped, _) => 0,
            (NumberAsYesOrNo, _) => head.dirty.min(1),
            (NumberOnRefusal, 3..=7) => image[72].into(),
            _ => head.dirty,
        };
        Head { dirty, ..head }
    }

    /// The normal form of one layer, or the collapse of two, lower first.
    pub fn write(self, layers: &[&[u8]], out: &mut [u8]) -> Written {
        let written = plain(layers, out);
        let dirty = layers.iter().any(|image| is_dirty(image));
        match (self, written.number) {
            (_, 27) => self.write_dirty(layers, out),
            (BeforeTheChecks, 8..=12) if dirty => refused(27),
            (Before23, 23) if dirty => refused(27),
            (Before22, 22) if dirty => refused(27),
            _ => written,
        }
    }

    /// What the mistake makes of layers that are refused 27.
    fn write_dirty(self, layers: &[&[u8]], out: &mut [u8]) -> Written {
        let mut seen: Vec<Vec<u8>> = layers.iter().map(|image| image.to_vec()).collect();
        for (index, image) in seen.iter_mut().enumerate() {
            if self.overlooks(image[72], index, layers.len()) {
                image[72] = 0;
            }
        }
        let seen: Vec<&[u8]> = seen.iter().map(|image| &image[..]).collect();
        // The result is made and dropped where only its room is asked for.
        let mut room = out.to_vec();
        match self {
            After21 if plain(&seen, &mut room).number == 0 => refused(27),
            WrittenAndRefused => {
                plain(&seen, out);
                refused(27)
            }
            _ => plain(&seen, out),
        }
    }

    /// Whether a layer's dirty byte is taken for 0.
    fn overlooks(self, dirty: u8, index: usize, layers: usize) -> bool {
        match self {
            NeverAsked | After21 | WrittenAndRefused => true,
            OnlyOneIsDirty => dirty != 1,
            LowestBitOnly => dirty % 2 == 0,
            LowerNotAsked => layers == 2 && index == 0,
            UpperNotAsked => index == 1,
            _ => false,
        }
    }
}

fn is_dirty(image: &[u8]) -> bool {
    Plain.header(image).dirty != 0
}

/// The plain side's normal form or collapse.
fn plain(layers: &[&[u8]], out: &mut [u8]) -> Written {
    match layers {
        [lower, upper] => Plain.collapse(lower, upper, out),
        _ => Plain.normal(layers[0], out),
    }
}

fn refused(number: u64) -> Written {
    Written {
        number,
        ..Written::default()
    }
}
