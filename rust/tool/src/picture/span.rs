//! Which grains a part has.

/// Grains in the order in which they were met.
#[derive(Clone, Copy, Debug, PartialEq, Eq)]
pub struct Span {
    pub count: u64,
    pub first: u64,
    pub last: u64,
    pub lowest: u64,
    pub highest: u64,
    /// Whether they are all of those from the first to the last, in order.
    pub in_order: bool,
    /// Twice the sum of their numbers, each as often as it has sectors here; and these sectors.
    weight: (u128, u128),
}

impl Span {
    pub fn new(first: u64, last: u64, sectors: u64) -> Span {
        let sectors = u128::from(sectors);
        Span {
            count: last - first + 1,
            first,
            last,
            lowest: first,
            highest: last,
            in_order: true,
            weight: (u128::from(first + last) * sectors, sectors),
        }
    }

    /// With those that come next. A grain may go on from one part to the next, and is one all the same.
    pub fn and(self, next: Span) -> Span {
        let same = u64::from(self.last == next.first);
        Span {
            count: self.count + next.count - same,
            first: self.first,
            last: next.last,
            lowest: self.lowest.min(next.lowest),
            highest: self.highest.max(next.highest),
            in_order: self.in_order && next.in_order && next.first == self.last + 1 - same,
            weight: (self.weight.0 + next.weight.0, self.weight.1 + next.weight.1),
        }
    }

    /// Where they are on a disk of so many grains: 0 at its first, 1,000 at its last.
    pub fn place(&self, grains: u64) -> u64 {
        let (sum, sectors) = self.weight;
        let most = 2 * sectors * u128::from(grains.saturating_sub(1)).max(1);
        (sum * 1000 / most.max(1)) as u64
    }
}

#[cfg(test)]
mod tests {
    use super::*;

    #[test]
    fn grains_have_a_place_on_the_disk() {
        let place = |first, last| Span::new(first, last, 128).place(101);
        assert_eq!(
            (place(0, 0), place(50, 50), place(100, 100)),
            (0, 500, 1000)
        );
        let both = Span::new(10, 10, 128).and(Span::new(30, 30, 128));
        assert_eq!(
            (both.place(101), both.count, both.in_order),
            (200, 2, false)
        );
        assert!(Span::new(3, 4, 256).and(Span::new(5, 9, 640)).in_order);
        assert_eq!(Span::new(0, 0, 8).place(1), 0);
    }
}
