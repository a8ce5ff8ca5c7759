//! All grains of a chain, one after the other: what the disk has there and each layer, and where that stands in the files.

use super::part::Part;
use super::parts::Parts;
use super::row::{Found, Grain, Row};
use super::sweep::{sweep, Run};
use crate::failure::Failure;
use crate::files::Layers;
use crate::progress::Progress;
use anhkhovet::{Area, ChainRefusal, Disk, Located, Refusal, Source, SECTOR};

/// Parts of a picture, whatever is drawn.
pub const PARTS: usize = 2000;

/// No strip gets more: it would not show them.
const MOST: usize = 900;

/// The strips of a chain, each with its parts in order.
pub struct Strips {
    /// Of each layer's file, base first.
    pub files: Vec<Vec<Part>>,
    /// Of what each layer has of the disk; of one layer alone that is the disk.
    pub layers: Vec<Vec<Part>>,
    pub disk: Vec<Part>,
}

/// A lookup's answer.
type Answer = Result<Source, Refusal>;

struct Walk<'a> {
    given: &'a Layers,
    grain_size: u64,
    /// Of each layer.
    runs: Vec<Vec<Run>>,
    layers: Vec<Row>,
    disk: Row,
}

/// The strips of layers that the check accepts or refuses with 9 to 12, by their frames.
pub fn walk(given: &Layers, disk: Disk, frames: Vec<Vec<Area>>) -> Result<Strips, Failure> {
    let count = given.count();
    let strips = if count == 1 { 2 } else { 2 * count + 1 };
    let most = MOST.min(PARTS / strips);
    let shown = if count == 1 { 0 } else { count };
    let row = || Row::new(Parts::new(disk.capacity, most));
    let mut walk = Walk {
        given,
        grain_size: disk.grain_size,
        runs: vec![Vec::new(); count],
        layers: (0..shown).map(|_| row()).collect(),
        disk: row(),
    };
    let progress = Progress::start("drawing", disk.capacity);
    let (mut first, mut number) = (0, 0);
    while first < disk.capacity {
        let sectors = disk.grain_size.min(disk.capacity - first);
        walk.add(Grain {
            number,
            first,
            sectors,
        })?;
        number += 1;
        first += sectors;
        progress.at(first);
    }
    Ok(walk.strips(frames, most))
}

impl Walk<'_> {
    fn add(&mut self, grain: Grain) -> Result<(), Failure> {
        let (top, answer) = match self.given.search(grain.first) {
            Ok(Located { layer, source }) => (layer, Ok(source)),
            Err(ChainRefusal { refusal, layer }) if matches!(refusal.number, 9 | 10) => {
                (layer, Err(refusal))
            }
            Err(ChainRefusal { refusal, layer }) => {
                return Err(Failure::refused(self.given.path(layer))(refusal))
            }
        };
        let found = Found::of(answer);
        if self.layers.is_empty() {
            self.disk.add(grain, found);
            self.take(0, &grain, answer, false);
            return Ok(());
        }
        let layers = 1 << top;
        self.disk.add(grain, Found { layers, ..found });
        for layer in 0..self.layers.len() as u64 {
            let own = match layer {
                layer if layer > top => Ok(Source::Absent),
                layer if layer == top => answer,
                layer => anhkhovet::lookup(self.given.bytes(layer), grain.first),
            };
            let hidden = layer < top && own != Ok(Source::Absent);
            let found = Found {
                hidden,
                ..Found::of(own)
            };
            self.layers[layer as usize].add(grain, found);
            self.take(layer, &grain, own, hidden);
        }
        Ok(())
    }

    /// What a grain takes of a layer's file.
    fn take(&mut self, layer: u64, grain: &Grain, answer: Answer, hidden: bool) {
        let (at, sectors, packed) = match answer {
            Ok(Source::Stored { sector }) => (sector, self.grain_size, false),
            // From the marker to the end of the payload.
            Ok(Source::Packed { sector, .. }) => {
                let end = self.given.place(layer, grain.first).end;
                (sector, (end + SECTOR - 1) / SECTOR - sector, true)
            }
            Ok(Source::Absent | Source::Zero) | Err(_) => return,
        };
        let run = Run {
            at,
            sectors,
            grain: grain.number as u32,
            packed,
            hidden,
        };
        let runs = &mut self.runs[layer as usize];
        match runs.last_mut() {
            Some(last) if last.goes_on(&run, self.grain_size) => last.sectors += sectors,
            _ => runs.push(run),
        }
    }

    fn strips(self, frames: Vec<Vec<Area>>, most: usize) -> Strips {
        let Walk {
            given,
            grain_size,
            runs,
            ..
        } = self;
        let file = |((layer, runs), areas): ((u64, Vec<Run>), Vec<Area>)| {
            let sectors = given.bytes(layer).len() as u64 / SECTOR;
            sweep(areas, runs, grain_size, Parts::new(sectors, most), sectors)
        };
        Strips {
            files: (0..).zip(runs).zip(frames).map(file).collect(),
            layers: self.layers.into_iter().map(Row::done).collect(),
            disk: self.disk.done(),
        }
    }
}
