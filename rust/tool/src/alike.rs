//! What the layers of a chain have in common: capacity and grain size.

use crate::failure::Refusal;
use crate::files::Layers;
use crate::names::name;
use anhkhovet::{ChainRefusal, Disk};
use std::path::Path;

pub fn disk(image: &[u8]) -> Result<Disk, anhkhovet::Refusal> {
    Ok(anhkhovet::header(image)?.disk)
}

/// The first image whose capacity or grain size is not the base's, beside the base.
pub fn unlike(images: &[(&Path, &[u8])]) -> String {
    let told = |(path, disk): (&Path, Disk)| {
        format!(
            "{} has capacity {} and grain size {}",
            name(path),
            disk.capacity,
            disk.grain_size
        )
    };
    let mut all = images
        .iter()
        .filter_map(|(path, bytes)| Some((*path, disk(bytes).ok()?)));
    match all.next() {
        Some(base) => match all.find(|(_, other)| *other != base.1) {
            Some(other) => format!("{}, {}", told(base), told(other)),
            None => told(base),
        },
        None => String::new(),
    }
}

/// What a chain is refused for. A refusal of the whole chain names no layer: the library says 0 there.
pub fn refusal(layers: &Layers, refused: &ChainRefusal) -> Refusal {
    let file = match refused.layer_at_fault() {
        None if layers.count() > 1 => None,
        _ => Some(layers.path(refused.layer)),
    };
    let mut refusal = Refusal::new(refused.refusal, file);
    match refused.refusal.number {
        20 => {
            if let Ok(disk) = disk(layers.bytes(0)) {
                refusal.detail = format!("the last sector is {}", disk.capacity - 1);
            }
        }
        22 => {
            let images: Vec<_> = (0..layers.count() as u64)
                .map(|layer| (layers.path(layer), layers.bytes(layer)))
                .collect();
            refusal.detail = unlike(&images);
        }
        24 => refusal.detail = format!("here are {}", layers.count()),
        _ => {}
    }
    refusal
}
