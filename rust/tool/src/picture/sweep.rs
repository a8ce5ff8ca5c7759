//! The sectors of a file from its first to its last: each in no area, in one, or in several.

use super::kind::Kind;
use super::part::{Owner, Part, Sharing};
use super::parts::Parts;
use anhkhovet::Area;

/// Grains in a row of the file that are in a row of the disk too. A disk may have millions of these, so they are kept small.
#[derive(Clone, Copy, Debug)]
pub struct Run {
    pub at: u64,
    pub sectors: u64,
    /// The first of them: a disk has at most 2^31 sectors.
    pub grain: u32,
    pub packed: bool,
    pub hidden: bool,
}

impl Run {
    /// Whether a grain goes on where this run ends. Each packed grain has a length of its own.
    pub fn goes_on(&self, next: &Run, grain_size: u64) -> bool {
        let grains = self.sectors / grain_size;
        !self.packed
            && !next.packed
            && self.hidden == next.hidden
            && self.at + self.sectors == next.at
            && u64::from(self.grain) + grains == u64::from(next.grain)
    }
}

/// An area of the file.
#[derive(Clone, Copy)]
enum Held {
    Frame(Area),
    Grains(Run),
}

impl Held {
    fn first(&self) -> u64 {
        match self {
            Held::Frame(area) => area.first,
            Held::Grains(run) => run.at,
        }
    }

    fn end(&self) -> u64 {
        match self {
            Held::Frame(area) => area.first + area.sectors,
            Held::Grains(run) => run.at + run.sectors,
        }
    }

    /// Who has these sectors of it.
    fn owner(&self, first: u64, end: u64, grain_size: u64) -> Owner {
        match self {
            Held::Frame(area) => Owner::Area(Kind::of_group(area.group)),
            Held::Grains(run) if run.packed => Owner::Grains(run.grain.into(), run.grain.into()),
            Held::Grains(run) => {
                let grain = |sector: u64| u64::from(run.grain) + (sector - run.at) / grain_size;
                Owner::Grains(grain(first), grain(end - 1))
            }
        }
    }
}

struct Sweep {
    parts: Parts,
    grain_size: u64,
    /// The first sector that is not told yet.
    at: u64,
    /// The two areas met so far that reach furthest: what lies before the second's end is in two.
    furthest: Option<Held>,
    second: Option<Held>,
}

/// The parts of a file of so many sectors, from its areas that are no grains and its grains, in any order.
pub fn sweep(
    mut areas: Vec<Area>,
    mut runs: Vec<Run>,
    grain_size: u64,
    parts: Parts,
    sectors: u64,
) -> Vec<Part> {
    areas.sort_by_key(|area| area.first);
    runs.sort_unstable_by_key(|run| (run.at, run.grain));
    let mut sweep = Sweep {
        parts,
        grain_size,
        at: 0,
        furthest: None,
        second: None,
    };
    let mut areas = areas.into_iter().map(Held::Frame).peekable();
    let mut runs = runs.into_iter().map(Held::Grains).peekable();
    loop {
        let next = match (areas.peek(), runs.peek()) {
            (Some(area), Some(run)) if area.first() <= run.first() => areas.next(),
            (_, Some(_)) => runs.next(),
            (_, None) => areas.next(),
        };
        match next {
            Some(held) => sweep.meet(held, sectors),
            None => break,
        }
    }
    sweep.tell(sectors);
    sweep.parts.done()
}

impl Sweep {
    /// The next area by its first sector.
    fn meet(&mut self, held: Held, sectors: u64) {
        self.tell(held.first().min(sectors));
        let reaches = |known: &Option<Held>| known.map_or(0, |known| known.end());
        if held.end() > reaches(&self.furthest) {
            self.second = self.furthest.replace(held);
        } else if held.end() > reaches(&self.second) {
            self.second = Some(held);
        }
    }

    /// Tells the sectors up to one, before which no other area begins.
    fn tell(&mut self, to: u64) {
        while self.at < to {
            let reaches = |held: &Held| held.end() > self.at;
            let furthest = self.furthest.filter(reaches);
            let second = self.second.filter(reaches);
            match (furthest, second) {
                (Some(one), Some(other)) => self.share(one, other, to.min(other.end())),
                (Some(held), None) => self.hold(held, to.min(held.end())),
                _ => {
                    let nothing = Part::new(self.at, to - self.at, Kind::Nothing);
                    self.parts.push(nothing);
                    self.at = to;
                }
            }
        }
    }

    fn share(&mut self, one: Held, other: Held, end: u64) {
        let owner = |held: Held| held.owner(self.at, end, self.grain_size);
        let sharing = Sharing {
            one: owner(other),
            other: owner(one),
            more: false,
        };
        self.parts.push(Part {
            sharing: Some(sharing),
            ..Part::new(self.at, end - self.at, Kind::Shared)
        });
        self.at = end;
    }

    fn hold(&mut self, held: Held, end: u64) {
        match held {
            Held::Frame(area) => {
                self.parts.push(Part {
                    areas: u64::from(area.first == self.at),
                    ..Part::new(self.at, end - self.at, Kind::of_group(area.group))
                });
                self.at = end;
            }
            Held::Grains(run) => {
                while self.at < end {
                    self.grains(&run, end);
                }
            }
        }
    }

    /// One grain of a run, or as many as are going to be put together anyway.
    fn grains(&mut self, run: &Run, end: u64) {
        let (size, first) = (self.grain_size, self.at);
        let end = if run.packed {
            end
        } else {
            let whole = |sector: u64| run.at + (sector - run.at) / size * size;
            end.min(whole(first + self.parts.cell()).max(whole(first) + size))
        };
        let kind = if run.packed {
            Kind::Packed
        } else {
            Kind::Stored
        };
        if let Owner::Grains(low, high) = Held::Grains(*run).owner(first, end, size) {
            let part = Part::of_grains(first, end - first, kind, (low, high), run.hidden);
            self.parts.push(part);
        }
        self.at = end;
    }
}
