//! What was drawn, in words and as an object.

use super::kind::KINDS;
use super::numbers::counted;
use super::part::Part;
use super::titles::{title, Strip};
use super::{Drawn, Picture};
use crate::cli::Target;
use crate::failure::{self, Failure};
use crate::json::Object;
use crate::names::{self, name};
use crate::print;
use crate::still_open::OpenImages;
use serde_json::{json, Value};

pub fn tell(
    picture: &Picture,
    target: &Target,
    open: &OpenImages,
    json: bool,
) -> Result<(), Failure> {
    if json {
        return print::members(|object| members(object, picture, target, open));
    }
    let refused = picture
        .layers
        .iter()
        .filter_map(|layer| Some((layer, layer.refused?)));
    let lines: String = refused.map(|(layer, why)| line(layer, why)).collect();
    let parts = counted(picture.parts().count() as u64, "part", "parts");
    print::text(&format!(
        "{lines}{}: written, {parts}\n",
        name(&target.path)
    ))
}

/// The verdict on a layer. That its disk was still open is told on standard error.
fn line(layer: &Drawn, why: anhkhovet::Refusal) -> String {
    format!("{}: {why}\n", name(&layer.path))
}

fn members(
    object: &mut Object,
    picture: &Picture,
    target: &Target,
    open: &OpenImages,
) -> Result<(), Failure> {
    object.member("capacity", &picture.disk.capacity)?;
    let paths = picture.layers.iter().map(|layer| layer.path.as_path());
    object.members(names::listed("files", paths))?;
    object.members(open.members())?;
    object.member("grain_size", &picture.disk.grain_size)?;
    names::member(object, "output", &target.path)?;
    object.member("parts", &picture.parts().count())?;
    object.list("layers", |take| {
        let layers = picture.layers.iter().zip(&picture.strips.files).enumerate();
        layers.into_iter().try_for_each(|(number, (layer, parts))| {
            let own = picture.strips.layers.get(number);
            take(&file(number, layer, parts, own))
        })
    })?;
    object.member("disk", &strip(Strip::Disk, &picture.strips.disk))
}

/// A layer: its verdict, its file's strip and, in a chain, what it has of the disk.
fn file(number: usize, layer: &Drawn, parts: &[Part], own: Option<&Vec<Part>>) -> Value {
    let mut object = json!({
        "layer": number,
        "file_sectors": layer.sectors,
        "bytes_past": layer.bytes_past,
        "file": strip(Strip::File, parts),
    });
    if let Some(why) = layer.refused {
        object["refused"] = failure::Refusal::new(why, Some(&layer.path)).json();
    }
    if let Some(parts) = own {
        object["disk"] = strip(Strip::Layer, parts);
    }
    object
}

/// A strip: its sectors by kind, and its parts.
fn strip(strip: Strip, parts: &[Part]) -> Value {
    let mut sectors = json!({});
    for (kind, key, ..) in KINDS {
        let sum: u64 = parts.iter().map(|part| part.of(kind)).sum();
        if sum > 0 {
            sectors[key] = json!(sum);
        }
    }
    let hidden: u64 = parts.iter().map(|part| part.hidden).sum();
    let parts: Vec<Value> = parts.iter().map(|one| part(strip, one)).collect();
    json!({ "sectors": sectors, "hidden": hidden, "parts": parts })
}

fn part(strip: Strip, part: &Part) -> Value {
    json!({
        "first": part.first,
        "sectors": part.sectors,
        "kind": part.main().key(),
        "hidden": part.hidden,
        "together": part.together,
        "title": title(strip, part),
    })
}
