//! `explain`: how a sector's source is found, a line a step, as it is done by hand: of a disk of several files the extent first, of
//! a chain layer by layer from the top.

mod end;
mod extent;
mod step;
#[cfg(test)]
mod tests;
mod walk;

use crate::failure::{Failure, Status};
use crate::files::Layers;
use crate::given::Given;
use crate::hint::hinted;
use crate::names::{name, put_name};
use crate::print;
use crate::refusals::help;
use crate::source;
use anhkhovet::{Located, Refusal, Source};
use end::Below;
use extent::Placed;
use serde_json::{json, Value};
use std::ops::RangeInclusive;
use std::path::PathBuf;
use walk::Walk;

/// Refusals to which a lookup comes step by step.
const ON_THE_WAY: RangeInclusive<u64> = 8..=10;

/// One image on the way.
struct Asked {
    /// Of a chain its number, from 0 at the base.
    layer: Option<u64>,
    path: PathBuf,
    walk: Walk,
}

impl Asked {
    fn lines(&self) -> String {
        let layer = match self.layer {
            Some(layer) => format!("layer {layer}, "),
            None => String::new(),
        };
        let (sector, file) = (self.walk.sector, name(&self.path));
        format!("sector {sector} of {layer}{file}\n{}", self.walk.lines())
    }

    fn object(&self) -> Value {
        let mut object = self.walk.object();
        put_name(&mut object, "file", &self.path);
        if let Some(layer) = self.layer {
            object["layer"] = json!(layer);
        }
        object
    }
}

/// What is told of a sector: as much of it as was come to.
#[derive(Default)]
struct Told {
    sector: u64,
    /// Of a disk of several files.
    placed: Option<Placed>,
    asked: Vec<Asked>,
    found: Option<(Given, Located)>,
}

impl Told {
    /// Goes the way; a refusal is where it ends.
    fn find(&mut self, paths: &[PathBuf]) -> Result<(), Failure> {
        let mut given = Given::at(paths, self.sector)?;
        let found = given.locate(self.sector);
        let why = found.as_ref().err().and_then(refusal);
        match &given {
            Given::Layers(layers) => self.asked = through(layers, self.sector, why),
            Given::Split(split) => {
                let source = found.as_ref().ok().map(|found| found.source);
                self.placed = Placed::of(split, self.sector, source);
                self.asked = self
                    .placed
                    .iter()
                    .filter_map(|placed| {
                        let (own, path) = placed.image(split)?;
                        inside(own, path, placed.inside, why)
                    })
                    .collect();
            }
        }
        given.same()?;
        self.found = Some((given, found?));
        Ok(())
    }

    fn lines(&self) -> String {
        let mut lines = self.placed.as_ref().map_or_else(String::new, Placed::lines);
        lines.extend(self.asked.iter().map(Asked::lines));
        if let Some((given, found)) = &self.found {
            lines += &(source::told(given, self.sector, found) + "\n");
        }
        lines
    }

    fn object(&self) -> Value {
        let mut object = match &self.found {
            Some((given, found)) => source::object(given, self.sector, found),
            None => json!({ "sector": self.sector }),
        };
        object["ways"] = self.asked.iter().map(Asked::object).collect();
        if let Some(placed) = &self.placed {
            object["in_extent"] = placed.object();
        }
        object
    }
}

/// The library's word, of a file or an extent; nothing where something else failed.
fn refusal(failure: &Failure) -> Option<Refusal> {
    match failure.of_extent() {
        Failure::Refused(refusal) => Some(refusal.why),
        _ => None,
    }
}

/// The layers from the top down to the one that has the sector or is refused.
fn through(layers: &Layers, sector: u64, why: Option<Refusal>) -> Vec<Asked> {
    let mut asked = Vec::new();
    if matches!(why, Some(why) if !ON_THE_WAY.contains(&why.number)) {
        return asked;
    }
    let chain = layers.count() > 1;
    for layer in (0..layers.count() as u64).rev() {
        let below = match (chain, layer) {
            (false, _) => Below::Unknown,
            (true, 0) => Below::Nothing,
            (true, layer) => Below::Layer(layer - 1),
        };
        let walk = Walk::of(layers.bytes(layer), sector, below);
        let absent = matches!(&walk, Some(walk) if walk.end == Ok(Source::Absent));
        asked.extend(walk.map(|walk| Asked {
            layer: chain.then_some(layer),
            path: layers.path(layer).to_path_buf(),
            walk,
        }));
        if !absent {
            break;
        }
    }
    asked
}

/// The way in an extent's image. That is checked as a whole, and may be refused for what is not on the way: then none is told.
fn inside(own: &[u8], path: PathBuf, sector: u64, why: Option<Refusal>) -> Option<Asked> {
    let walk = Walk::of(own, sector, Below::Unknown)?;
    (walk.end.err() == why).then_some(Asked {
        layer: None,
        path,
        walk,
    })
}

pub fn explain(paths: &[PathBuf], sector: u64, json: bool) -> Result<(), Failure> {
    let mut told = Told {
        sector,
        ..Told::default()
    };
    let failure = match told.find(paths) {
        Ok(()) => return print::answer(json, || told.lines(), || told.object()),
        Err(failure) => failure,
    };
    let (help, rule) = match refusal(&failure) {
        Some(why) => help(why.number),
        None => return Err(failure),
    };
    let failure = hinted(failure);
    let object = || {
        let mut object = told.object();
        object["refused"] = failure.json()["refused"].take();
        object["rule"] = rule;
        object
    };
    print::answer(
        json,
        || format!("{}{failure}\n{help}", told.lines()),
        object,
    )?;
    Err(Failure::Told(Status::Refused))
}
