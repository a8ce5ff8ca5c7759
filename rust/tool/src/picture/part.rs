//! Parts of a strip: some sectors in a row, and what they are.

use super::kind::{Kind, KINDS};
use super::span::Span;
use anhkhovet::Refusal;

/// What takes a sector of a file.
#[derive(Clone, Copy, Debug, PartialEq, Eq)]
pub enum Owner {
    Area(Kind),
    /// The first and the last of some grains in a row.
    Grains(u64, u64),
}

/// Two that take the same sectors.
#[derive(Clone, Copy, Debug, PartialEq, Eq)]
pub struct Sharing {
    pub one: Owner,
    pub other: Owner,
    /// Whether there are others in the part.
    pub more: bool,
}

/// Sectors in a row of a file or of the disk: of one kind, or of several that were put together.
#[derive(Clone, Debug, PartialEq, Eq)]
pub struct Part {
    pub first: u64,
    pub sectors: u64,
    /// Its sectors by the number of the kind.
    pub by_kind: [u64; KINDS.len()],
    /// Those of grains that a layer above hides.
    pub hidden: u64,
    /// How many areas that are no grains begin in it.
    pub areas: u64,
    pub grains: Option<Span>,
    /// The layers that serve it, of the disk of a chain: a bit each.
    pub layers: u16,
    /// What its first refused grain is refused for.
    pub refused: Option<Refusal>,
    pub sharing: Option<Sharing>,
    /// Whether it was put together since there were too many.
    pub together: bool,
}

impl Part {
    pub fn new(first: u64, sectors: u64, kind: Kind) -> Part {
        let mut by_kind = [0; KINDS.len()];
        by_kind[kind.number()] = sectors;
        Part {
            first,
            sectors,
            by_kind,
            hidden: 0,
            areas: 0,
            grains: None,
            layers: 0,
            refused: None,
            sharing: None,
            together: false,
        }
    }

    /// Grains in a row, and whether a layer above hides them.
    pub fn of_grains(
        first: u64,
        sectors: u64,
        kind: Kind,
        grains: (u64, u64),
        hidden: bool,
    ) -> Part {
        Part {
            grains: Some(Span::new(grains.0, grains.1, sectors)),
            hidden: if hidden { sectors } else { 0 },
            // Each of those has an edge of its own.
            together: grains.0 < grains.1 && matches!(kind, Kind::Stored | Kind::Packed),
            ..Part::new(first, sectors, kind)
        }
    }

    pub fn end(&self) -> u64 {
        self.first + self.sectors
    }

    pub fn of(&self, kind: Kind) -> u64 {
        self.by_kind[kind.number()]
    }

    /// The kinds that it has, with their sectors.
    pub fn kinds(&self) -> impl Iterator<Item = (Kind, u64)> + '_ {
        let all = KINDS.iter().map(|(kind, ..)| (*kind, self.of(*kind)));
        all.filter(|(_, sectors)| *sectors > 0)
    }

    /// What it is drawn as: what is wrong before all else, then what most of its sectors are, if something stands there.
    pub fn main(&self) -> Kind {
        for wrong in [Kind::Shared, Kind::Refused] {
            if self.of(wrong) > 0 {
                return wrong;
            }
        }
        let most = |(kind, sectors): &(Kind, u64)| (!kind.is_empty(), *sectors);
        let main = self.kinds().max_by_key(most);
        main.map_or(Kind::Nothing, |(kind, _)| kind)
    }

    /// The sectors at which something stands.
    pub fn held(&self) -> u64 {
        self.sectors - self.of(Kind::Nothing) - self.of(Kind::Absent)
    }

    /// Whether a layer above hides most of what stands there.
    pub fn is_hidden(&self) -> bool {
        2 * self.hidden > self.held()
    }

    /// Whether the next part is more of the same, which has no edge to be seen.
    pub fn goes_on(&self, next: &Part) -> bool {
        let kind = self.main();
        let alike = matches!(
            kind,
            Kind::Absent | Kind::Zero | Kind::Nothing | Kind::Shared
        );
        alike
            && self.of(kind) == self.sectors
            && next.of(kind) == next.sectors
            && self.is_hidden() == next.is_hidden()
            && self.layers == next.layers
    }

    /// Takes in the part that begins where this one ends.
    pub fn join(&mut self, next: &Part) {
        self.sectors += next.sectors;
        for (sum, sectors) in self.by_kind.iter_mut().zip(next.by_kind) {
            *sum += sectors;
        }
        self.hidden += next.hidden;
        self.areas += next.areas;
        self.grains = match (self.grains, next.grains) {
            (Some(here), Some(there)) => Some(here.and(there)),
            (here, there) => here.or(there),
        };
        self.layers |= next.layers;
        self.refused = self.refused.or(next.refused);
        self.sharing = match (self.sharing, next.sharing) {
            (Some(here), Some(there)) => Some(Sharing {
                more: here.more || there.more || here != there,
                ..here
            }),
            (here, there) => here.or(there),
        };
        self.together |= next.together;
    }
}
