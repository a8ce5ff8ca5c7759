//! Chains of several layers in one image: the same bytes whatever is paired first, and the refusal of the lowest pair.

mod common;
#[path = "common/image.rs"]
mod image;

use common::{run, Folder};
use image::{Image, GRAIN};
use std::fs;

const LAYERS: [&str; 5] = ["a", "b", "c", "d", "e"];
const GRAINS: u64 = 1500;

/// A layer whose grains are absent, zero or stored, by numbers that look like chance, and differ from layer to layer.
fn layer(folder: &Folder, which: usize) {
    let image = Image::new(&folder.at(LAYERS[which]), GRAINS * GRAIN);
    let mut chance = which as u64 + 1;
    let mut stored = 0;
    for grain in 0..GRAINS {
        chance = chance
            .wrapping_mul(6364136223846793005)
            .wrapping_add(1442695040888963407);
        match chance >> 61 {
            0 => image.entry(grain, 1),
            1 | 2 => {
                let at = image.start + GRAIN * stored;
                image.entry(grain, at);
                image.put(512 * at, format!("{which}: {grain}").as_bytes());
                stored += 1;
            }
            _ => {}
        }
    }
    image.length(512 * (image.start + GRAIN * stored));
}

#[test]
fn whatever_is_paired_first() {
    let folder = Folder::new();
    (0..LAYERS.len()).for_each(|which| layer(&folder, which));
    let whole = [&["collapse"], &LAYERS[..], &["-o", "whole"]].concat();
    run(folder.path(), &whole).well();
    // From the base up, a pair at a time.
    run(folder.path(), &["normal", "a", "-o", "up"]).well();
    for upper in &LAYERS[1..] {
        run(folder.path(), &["collapse", "up", upper, "-o", "next"]).well();
        fs::rename(folder.at("next"), folder.at("up")).expect("renamed");
    }
    let (whole, up) = (fs::read(folder.at("whole")), fs::read(folder.at("up")));
    assert!(whole.expect("an image") == up.expect("an image"));
    assert_eq!(folder.names().len(), LAYERS.len() + 2, "a part is left");
    // Sector by sector it is the chain's.
    let chain = run(folder.path(), &[&["digest"], &LAYERS[..]].concat());
    let one = run(folder.path(), &["digest", "whole"]);
    assert!(chain.well().out == one.well().out);
}

#[test]
fn the_lowest_pair_that_is_refused_is_told() {
    let folder = Folder::new().with(&["tool-packed.vmdk"]);
    (0..3).for_each(|which| layer(&folder, which));
    Image::new(&folder.at("short"), GRAIN);
    fs::write(folder.at("none"), [7; 4096]).expect("written");
    let cases: [(&[&str], &str); 5] = [
        (&["a", "none", "short", "b"], "none: refused 2"),
        (&["a", "b", "short", "none"], "refused 22"),
        (&["none", "b", "short"], "none: refused 2"),
        (&["tool-packed.vmdk", "none"], "none: refused 2"),
        (
            &["a", "b", "tool-packed.vmdk"],
            "tool-packed.vmdk: refused 23",
        ),
    ];
    for (layers, told) in cases {
        let words = [&["collapse"], layers, &["-o", "out"]].concat();
        run(folder.path(), &words).ended(1, told);
    }
    assert_eq!(folder.names().len(), 6);
}
