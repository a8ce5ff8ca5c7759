//! Frames with a mistake in their list or their number.

use compare::side::{Plain, Side};
use plain::Framed;

#[derive(Clone, Copy, Debug, PartialEq)]
pub enum Mistake {
    RedundantAsPrimary,
    CopiesJudged,
    WordPastTheLast,
    WordOnRefusal,
}

use Mistake::*;

pub const ALL: [Mistake; 4] = [
    RedundantAsPrimary,
    CopiesJudged,
    WordPastTheLast,
    WordOnRefusal,
];

impl Mistake {
    pub fn frame(self, image: &[u8], list: &mut [u64]) -> Framed {
        if self == CopiesJudged && Plain.check(image).number == 11 {
            return Framed {
                number: 11,
                ..Framed::default()
            };
        }
        let framed = Plain.frame(image, list);
        let end = 3 * framed.count as usize;
        if self == RedundantAsPrimary {
            for area in list[..end].chunks_mut(3).filter(|area| area[0] == 6) {
                area[0] = 5;
            }
        }
        let past = framed.number == 0 && self == WordPastTheLast;
        let refused = framed.number == 21 && self == WordOnRefusal;
        if let (true, Some(word)) = (past || refused, list.get_mut(end)) {
            *word = word.wrapping_add(1);
        }
        framed
    }
}
