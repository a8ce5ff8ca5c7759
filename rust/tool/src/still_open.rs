//! Images whose disk was still open when they were copied. Every answer is what it would be else, and this is told beside it.

use crate::files::Layers;
use crate::names::{listed, name};
use crate::print;
use anhkhovet::Refusal;
use serde_json::{json, Value};
use std::path::PathBuf;

/// The number by which `collapse` and `normal` refuse such an image.
pub const STILL_OPEN: u64 = 27;

/// The member that says it of an image, or of all that an answer rests on.
const MEMBER: &str = "still_open";

/// Whether the disk of an image was still open; nothing where the header is refused.
pub fn still_open(image: &[u8]) -> Option<bool> {
    let header = anhkhovet::header(image).ok()?;
    Some(header.still_open())
}

/// What stands after a verdict.
pub fn remark(open: Option<bool>) -> &'static str {
    match open {
        Some(true) => "; the disk was still open when it was copied",
        _ => "",
    }
}

pub fn put(object: &mut Value, open: Option<bool>) {
    if let Some(open) = open {
        object[MEMBER] = json!(open);
    }
}

/// Those of a command's images that were still open: how words name each, and its file.
pub struct OpenImages(Vec<(String, PathBuf)>);

impl OpenImages {
    pub fn of(images: impl Iterator<Item = (String, PathBuf)>) -> OpenImages {
        OpenImages(images.collect())
    }

    pub fn of_layers(layers: &Layers) -> OpenImages {
        let open = |layer: &u64| still_open(layers.bytes(*layer)) == Some(true);
        let open = (0..layers.count() as u64).filter(open);
        let paths = open.map(|layer| layers.path(layer));
        OpenImages::of(paths.map(|path| (name(path), path.to_path_buf())))
    }

    /// A line for each on standard error: what stands on standard output is the same as without it.
    pub fn note(&self) {
        let number = STILL_OPEN;
        let sentence = Refusal { number, place: 0 }.sentence();
        for (image, _) in &self.0 {
            print::note(&format!("{image}: {sentence}"));
        }
    }

    /// `still_open` and, where it is true, `open_files`.
    pub fn members(&self) -> Vec<(String, Value)> {
        let mut members = vec![(MEMBER.to_string(), json!(!self.0.is_empty()))];
        if !self.0.is_empty() {
            let paths = self.0.iter().map(|(_, path)| path.as_path());
            members.extend(listed("open_files", paths));
        }
        members
    }
}
