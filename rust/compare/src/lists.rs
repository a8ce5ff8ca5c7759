//! Lists of extent records, lists of layer lengths, and lists that are lent to a call.

use crate::rng::Rng;
use crate::run::Run;
use crate::side::Side;
use crate::tally::Call;
use plain::Extent;
use std::fmt::Debug;

impl Run<'_> {
    /// Both lists hold the same before the call, and are compared whole after it. The plain side's answer, and its list.
    pub(crate) fn lend<T, A>(
        &mut self,
        call: Call,
        input: &[u8],
        list: &[T],
        ask: impl Fn(&dyn Side, &mut [T]) -> A,
    ) -> (A, Vec<T>)
    where
        T: Clone + Debug + PartialEq,
        A: Debug + PartialEq,
    {
        let [mut ours, mut theirs] = [list.to_vec(), list.to_vec()];
        let tested = ask(self.sides[0], &mut ours);
        let plain = ask(self.sides[1], &mut theirs);
        let mut pairs = ours.iter().zip(&theirs).enumerate();
        let differing = pairs.find(|(_, (one, other))| one != other);
        let words = (list.len(), &differing);
        let lent = differing.is_none();
        self.compare(call, [&tested, &plain], lent, &[input], &words);
        (plain, theirs)
    }
}

/// A record of any numbers, which no call may take for sound.
pub fn record(rng: &mut Rng) -> Extent {
    let small = rng.below(1000);
    let first = rng.pick(&[0, small, u64::MAX, u64::MAX - small, 1 << 63, 1 << 31]);
    let sectors = rng.pick(&[0, 1, small, small + 1, u64::MAX, u64::MAX - first, 1 << 63]);
    Extent {
        first,
        sectors,
        access: rng.any(),
        kind: rng.any(),
        name_at: rng.any(),
        name_length: rng.any(),
        offset: rng.any(),
    }
}

/// The search in lists of any length: records side by side as a descriptor gives them, or any.
pub fn case(run: &mut Run, rng: &mut Rng) {
    let count = rng.pick(&[0, 1, 2, 5, 31, 32, 33, 40, 100]);
    let mut list = Vec::new();
    let mut next = if rng.one_in(4) { u64::MAX - 2000 } else { 0 };
    let any = rng.one_in(3);
    for _ in 0..count {
        let mut extent = record(rng);
        if !any {
            extent.first = next;
            extent.sectors = rng.within(0, 100);
            next = next.wrapping_add(extent.sectors);
        }
        list.push(extent);
    }
    let mut sectors = vec![0, u64::MAX, rng.any(), next];
    for extent in &list {
        let end = extent.first.wrapping_add(extent.sectors);
        sectors.extend([
            extent.first,
            extent.first.wrapping_sub(1),
            end,
            end.wrapping_sub(1),
        ]);
    }
    for _ in 0..6 {
        run.find(&list, rng.pick(&sectors));
    }
}

/// Lengths that do not fit: a sum one off, a sum that wraps to the right one, layers of no bytes.
pub fn damage_lengths(rng: &mut Rng, lengths: &mut Vec<u64>) {
    let sum: u64 = lengths.iter().sum();
    if lengths.is_empty() {
        let count = rng.pick(&[1, 2, 16, 17]);
        lengths.resize(count, 0);
        return;
    }
    let one = rng.index(lengths.len());
    let other = rng.index(lengths.len());
    match rng.below(8) {
        0 => lengths[one] = lengths[one].wrapping_add(1),
        1 => lengths[one] = lengths[one].wrapping_sub(1),
        2 | 3 => {
            // Twice 2^63 wraps to nothing.
            lengths[one] = lengths[one].wrapping_add(1 << 63);
            lengths[other] = lengths[other].wrapping_add(1 << 63);
        }
        4 => *lengths = vec![u64::MAX, sum.wrapping_add(1)],
        5 => lengths.insert(one, 0),
        6 => {
            // A byte from one layer to another.
            lengths[one] = lengths[one].wrapping_add(1);
            lengths[other] = lengths[other].wrapping_sub(1);
        }
        _ => {
            lengths.pop();
        }
    }
}
