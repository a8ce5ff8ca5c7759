//! The whole picture: the files, the disk below them, and the legend.

use super::labels;
use super::legend;
use super::numbers::{counted, size};
use super::paint;
use super::scale::{disk_ticks, file_ticks, Scale, LEFT, LONG};
use super::strip::{draw, Look};
use super::svg::{escaped, length, Svg};
use super::titles::Strip;
use super::Picture;
use crate::names::name;
use crate::still_open;
use anhkhovet::SECTOR;
use std::path::Path;

const WIDE: f64 = 1100.0;

/// Beside a strip's end.
const BESIDE: f64 = LEFT + LONG + 10.0;

/// Letters of a name that have room in a line.
const LETTERS: usize = 90;

const STYLE: &str = "<style>text{font:11px Verdana,'DejaVu Sans',sans-serif;fill:#000}\
    .name{font-size:14px;font-weight:bold}.told{font-size:12px}.heading{font-size:15px;font-weight:bold}\
    .tick{text-anchor:middle;fill:#333;font-size:10px}.on{text-anchor:middle;pointer-events:none;\
    paint-order:stroke;stroke:#fff;stroke-width:4px;stroke-opacity:.9}.dark{fill:#fff;stroke:none}\
    .wrong{font-weight:bold}.red{fill:#c00}.small{fill:#333;font-size:10px}</style>";

/// The picture as markup.
pub fn page(picture: &Picture) -> String {
    let mut svg = Svg::default();
    let mut y = 16.0;
    for layer in (0..picture.layers.len()).rev() {
        y = file(&mut svg, picture, layer, y);
    }
    y = disk(&mut svg, picture, y + 8.0);
    let (y, drawn) = legend::draw(svg, picture, y + 8.0);
    let names: Vec<String> = picture
        .layers
        .iter()
        .map(|layer| name(&layer.path))
        .collect();
    let heading = escaped(&format!("Picture of {}", names.join(", ")));
    let (wide, high) = (length(WIDE), length(y));
    let definitions = paint::definitions();
    format!(
        "<?xml version=\"1.0\" encoding=\"UTF-8\"?>\n<svg xmlns=\"http://www.w3.org/2000/svg\" role=\"img\" \
         width=\"{wide}\" height=\"{high}\" viewBox=\"0 0 {wide} {high}\">\n<title>{heading}</title>\n{STYLE}\n{definitions}\n\
         <rect width=\"{wide}\" height=\"{high}\" fill=\"#fff\"/>\n{}</svg>\n",
        drawn.markup()
    )
}

/// A name that is too long for a line without its middle.
fn shortened(path: &Path) -> String {
    let whole = name(path);
    let letters: Vec<char> = whole.chars().collect();
    if letters.len() <= LETTERS {
        return whole;
    }
    let half = LETTERS / 2;
    let part = |letters: &[char]| letters.iter().collect::<String>();
    format!(
        "{} … {}",
        part(&letters[..half]),
        part(&letters[letters.len() - half..])
    )
}

/// A layer's name, and what the check says of it.
fn verdict(svg: &mut Svg, picture: &Picture, layer: usize, y: f64) {
    let of = &picture.layers[layer];
    let which = match layer {
        _ if picture.layers.len() == 1 => String::new(),
        0 => "layer 0, the base: ".to_string(),
        layer if layer + 1 == picture.layers.len() => format!("layer {layer}, the top: "),
        layer => format!("layer {layer}: "),
    };
    let named = format!("{which}{}", shortened(&of.path));
    svg.text(LEFT, y + 12.0, r#" class="name""#, &named);
    let verdict = match of.refused {
        Some(why) => why.to_string(),
        None => "accepted".to_string(),
    };
    let remark = still_open::remark(Some(of.still_open));
    let told = format!("check: {verdict}{remark}");
    svg.text(LEFT, y + 29.0, r#" class="told""#, &told);
}

/// A layer's file as a strip. Where it ends.
fn file(svg: &mut Svg, picture: &Picture, layer: usize, y: f64) -> f64 {
    verdict(svg, picture, layer, y);
    let (of, parts) = (&picture.layers[layer], &picture.strips.files[layer]);
    let alone = picture.layers.len() == 1;
    let scale = Scale::of_file(parts);
    let labels = labels::labels(parts, &scale);
    let top = y + 40.0 + labels::height(&labels);
    let look = Look {
        grains: picture.grains(),
        strip: Strip::File,
        y: top,
        height: if alone { 48.0 } else { 34.0 },
    };
    labels::draw(svg, &labels, top);
    draw(svg, look, parts, &scale);
    let sectors = counted(of.sectors, "sector", "sectors");
    svg.text(BESIDE, top + 14.0, "", "the file:");
    svg.text(BESIDE, top + 28.0, "", &sectors);
    if alone {
        let bytes = of.sectors * SECTOR + of.bytes_past;
        svg.text(BESIDE, top + 42.0, "", &size(bytes));
    }
    let bottom = top + look.height;
    file_ticks(svg, bottom, parts, &scale);
    bottom + 36.0
}

/// What each layer of a chain has of the disk, the top one first. Where that ends.
fn layers(svg: &mut Svg, picture: &Picture, mut y: f64) -> f64 {
    let layers = &picture.strips.layers;
    for (layer, parts) in layers.iter().enumerate().rev() {
        let look = Look {
            grains: picture.grains(),
            strip: Strip::Layer,
            y,
            height: 22.0,
        };
        draw(svg, look, parts, &Scale::of_disk(parts));
        svg.text(BESIDE, y + 15.0, "", &format!("layer {layer}"));
        y += 27.0;
    }
    if layers.is_empty() {
        y
    } else {
        y + 6.0
    }
}

/// The virtual disk by kind, of a chain layer by layer first. Where it ends.
fn disk(svg: &mut Svg, picture: &Picture, y: f64) -> f64 {
    let (capacity, grain_size) = (picture.disk.capacity, picture.disk.grain_size);
    let heading = format!(
        "The virtual disk: {}, {}, {} of {grain_size} sectors",
        counted(capacity, "sector", "sectors"),
        size(capacity * SECTOR),
        counted(picture.grains(), "grain", "grains"),
    );
    svg.text(LEFT, y + 12.0, r#" class="heading""#, &heading);
    let y = layers(svg, picture, y + 24.0);
    let parts = &picture.strips.disk;
    let scale = Scale::of_disk(parts);
    let labels = labels::labels(parts, &scale);
    let top = y + labels::height(&labels);
    let look = Look {
        grains: picture.grains(),
        strip: Strip::Disk,
        y: top,
        height: 40.0,
    };
    labels::draw(svg, &labels, top);
    draw(svg, look, parts, &scale);
    svg.text(BESIDE, top + 17.0, "", "the disk");
    if picture.layers.len() > 1 {
        svg.text(BESIDE, top + 31.0, "", "as it is read");
    }
    disk_ticks(svg, top + look.height, capacity, grain_size);
    top + look.height + 30.0
}
