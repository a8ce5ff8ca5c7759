//! `picture`: what is drawn, pixel by pixel.

mod common;
#[path = "picture/images.rs"]
mod images;
#[path = "picture/pixels.rs"]
mod pixels;

use common::Folder;
use images::{folder, markup, CHAIN};
use pixels::{can_draw, is_red, part, parts, Drawn, Pixels};
use std::fs;
use std::path::{Path, PathBuf};

fn drawn(folder: &Folder, files: &[&str], to: &str) -> (Vec<Drawn>, Pixels) {
    let markup = markup(folder, files, to);
    (parts(&markup), Pixels::of(folder.path(), to))
}

#[test]
fn a_sound_disk_has_no_red() {
    if !can_draw() {
        return;
    }
    let folder = folder();
    let (parts, pixels) = drawn(&folder, &["tool-base.vmdk"], "sound.svg");
    assert_eq!(pixels.places(is_red).len(), 0);
    // What nothing holds is white but for the word on it, a grain is blue, and the header is black.
    let nothing = pixels.within(part(&parts, "nothing holds these: file sectors 31 to 127"));
    let white = nothing.iter().filter(|pixel| **pixel == [255; 3]).count();
    assert!(10 * white > 9 * nothing.len());
    let grain = pixels.within(part(&parts, "grain 0, stored: file sectors 128 to 255"));
    let blue = grain.iter().filter(|[red, _, blue]| blue > red).count();
    assert!(10 * blue > 9 * grain.len());
    let header = pixels.within(part(&parts, "header: file sector 0"));
    assert!(header.iter().all(|pixel| *pixel == [0; 3]));
    // The later grain is the darker one.
    let light = |title| pixels.lights(part(&parts, title)).0;
    assert!(light("grain 0, stored: file") > light("grain 1, stored: file") + 4.0);
}

#[test]
fn two_grains_on_one_sector_are_red() {
    if !can_draw() {
        return;
    }
    let folder = folder();
    let (parts, pixels) = drawn(&folder, &["twice.vmdk"], "twice.svg");
    let shared = part(
        &parts,
        "in two areas: file sector 255; here are grain 0 and grain 1",
    );
    let within = pixels.within(shared);
    let red = within.iter().filter(|pixel| is_red(**pixel)).count();
    assert!(2 * red > within.len(), "{red} of {}", within.len());
    // Not colour alone: there are white lines on it.
    assert!(within.iter().any(|pixel| pixels::light(*pixel) > 170.0));
    // And nowhere else, but for the words above it and the legend.
    let places = pixels.places(is_red);
    let elsewhere = |place: &&(f64, f64)| {
        !shared.holds(**place) && !shared.above(**place) && !shared.far_below(**place)
    };
    assert_eq!(places.iter().filter(elsewhere).count(), 0);
    let words = places.iter().filter(|place| shared.above(**place));
    assert!(words.count() > 50);
    assert!(places.iter().any(|place| shared.far_below(*place)));
}

#[test]
fn hidden_grains_are_pale() {
    if !can_draw() {
        return;
    }
    let folder = folder();
    let (alone, single) = drawn(&folder, &CHAIN[..1], "sound.svg");
    let (chain, pixels) = drawn(&folder, &CHAIN, "chain.svg");
    for title in [
        "grain 0, stored: file sectors 128 to 255",
        "grain 1, stored: file sectors 256 to 383",
    ] {
        let seen = single.lights(part(&alone, title)).0;
        let hidden = format!("{title}; hidden by a layer above");
        let pale = pixels.lights(part(&chain, &hidden)).0;
        assert!(pale > seen + 8.0, "{title}: {seen}, {pale}");
    }
    // In the middle layer grain 1 serves the disk, and stands where grain 1 of the base is hidden.
    let serving = part(&chain, "grain 1, stored: file sectors 128 to 255");
    assert_eq!(serving.title, "grain 1, stored: file sectors 128 to 255");
    assert!(part(
        &chain,
        "grain 1, stored: virtual sectors 128 to 255; from layer 1"
    )
    .title
    .ends_with("1"));
    assert!(part(
        &chain,
        "grain 0, zero: virtual sectors 0 to 127; from layer 2"
    )
    .title
    .ends_with("2"));
}

/// Kinds differ in print without colour too: in how light they are, or in their pattern.
#[test]
fn kinds_differ_without_colour() {
    if !can_draw() {
        return;
    }
    let folder = folder();
    let (parts, pixels) = drawn(&folder, &["tool-base.vmdk"], "sound.svg");
    let titles = [
        "header",
        "descriptor",
        "redundant directory",
        "redundant table",
        "directory",
        "table",
        "nothing",
    ];
    let lights: Vec<_> = titles
        .iter()
        .map(|title| pixels.lights(part(&parts, title)))
        .collect();
    for (one, (light, pattern)) in lights.iter().enumerate() {
        for (other, (lighter, patterned)) in lights.iter().enumerate().skip(one + 1) {
            let apart = (light - lighter).abs() + (pattern - patterned).abs();
            assert!(
                apart > 12.0,
                "{} and {}: {apart}",
                titles[one],
                titles[other]
            );
        }
    }
}

/// The pictures of docs/ are what is drawn today. With ANHKHOVET_WRITE set they are drawn anew.
#[test]
fn the_pictures_of_the_documents() {
    let folder = folder();
    let kept = Path::new(env!("CARGO_MANIFEST_DIR")).join("../../docs/pictures");
    for (name, files) in [
        ("sound-disk.svg", &CHAIN[..1]),
        ("two-grains-on-one-sector.svg", &["twice.vmdk"]),
        ("chain.svg", &CHAIN),
    ] {
        let now = markup(&folder, files, name);
        let path: PathBuf = kept.join(name);
        if std::env::var_os("ANHKHOVET_WRITE").is_some() {
            fs::write(&path, now).expect("written");
        } else {
            assert!(
                fs::read_to_string(path).expect("a picture") == now,
                "{name}"
            );
        }
    }
}
