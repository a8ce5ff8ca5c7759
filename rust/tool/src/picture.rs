//! `picture`: the files of a chain as strips, the disk below them, in one SVG.

mod kind;
mod labels;
mod legend;
mod numbers;
mod page;
mod paint;
mod part;
mod parts;
mod row;
mod scale;
mod span;
mod strip;
mod svg;
mod sweep;
mod titles;
mod told;
mod walk;

#[cfg(test)]
mod tests;

use crate::alike;
use crate::checked::checked;
use crate::cli::Target;
use crate::failure::Failure;
use crate::files::Layers;
use crate::output::Output;
use crate::progress::Progress;
use crate::still_open::{still_open, OpenImages};
use anhkhovet::{Area, Disk, Refusal, SECTOR};
use part::Part;
use std::path::PathBuf;
use walk::Strips;

/// What is drawn.
struct Picture {
    layers: Vec<Drawn>,
    disk: Disk,
    strips: Strips,
}

/// One layer's file.
struct Drawn {
    path: PathBuf,
    sectors: u64,
    /// What comes after the last whole sector.
    bytes_past: u64,
    /// Why the check refuses it, if 9 to 12.
    refused: Option<Refusal>,
    still_open: bool,
}

impl Picture {
    /// Grains of the disk.
    fn grains(&self) -> u64 {
        let Disk {
            capacity,
            grain_size,
        } = self.disk;
        (capacity + grain_size - 1) / grain_size
    }

    fn parts(&self) -> impl Iterator<Item = &Part> {
        let Strips {
            files,
            layers,
            disk,
        } = &self.strips;
        files.iter().chain(layers).flatten().chain(disk)
    }
}

/// Judges each layer, base first. One that is refused 9 to 12 has a frame and lookups all the same: there a picture is needed
/// most.
fn judged(layers: &mut Layers) -> Result<Vec<(Drawn, Vec<Area>)>, Failure> {
    let _progress = Progress::start("checking", 0);
    let count = layers.count() as u64;
    (0..count).map(|layer| judge(layers, layer)).collect()
}

fn judge(layers: &mut Layers, layer: u64) -> Result<(Drawn, Vec<Area>), Failure> {
    let answer = layers.ask(layer, checked)?;
    let own = layers.bytes(layer);
    let frame = anhkhovet::frame(own);
    let (length, open) = (own.len() as u64, still_open(own));
    layers.same()?;
    let path = layers.path(layer);
    let frame = frame.map_err(Failure::refused(path))?;
    let drawn = Drawn {
        path: path.to_path_buf(),
        sectors: length / SECTOR,
        bytes_past: length % SECTOR,
        refused: answer.err(),
        still_open: open == Some(true),
    };
    Ok((drawn, frame))
}

/// Whether the layers are of one disk, which a lookup says also where it is refused for its grain.
fn of_one_disk(layers: &mut Layers) -> Result<Disk, Failure> {
    match layers.locate(0) {
        Err(Failure::Refused(refusal)) if matches!(refusal.why.number, 9 | 10) => {}
        located => drop(located?),
    }
    alike::disk(layers.bytes(0)).map_err(Failure::refused(layers.path(0)))
}

pub fn picture(paths: &[PathBuf], target: &Target, json: bool) -> Result<(), Failure> {
    let mut layers = Layers::open(paths)?;
    let open = OpenImages::of_layers(&layers);
    layers.same()?;
    open.note();
    let mut output = Output::create(target, paths)?;
    let (drawn, frames) = judged(&mut layers)?.into_iter().unzip();
    let disk = of_one_disk(&mut layers)?;
    let strips = walk::walk(&layers, disk, frames)?;
    layers.same()?;
    let picture = Picture {
        layers: drawn,
        disk,
        strips,
    };
    output.write(page::page(&picture).as_bytes())?;
    output.finish()?;
    told::tell(&picture, target, &open, json)
}
