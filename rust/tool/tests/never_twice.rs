//! The two sentences of docs/COVERAGE.md, on chains of made images that are accepted.

#[path = "common/chains.rs"]
mod chains;
#[path = "../src/frame/made.rs"]
mod made;

use anhkhovet::{Located, Refusal, Source};
use chains::{accepted, Chain};

const IMAGES: u64 = 600;

/// Room for any image that is collapsed of these.
const ROOM: usize = 1 << 23;

/// Chains of one to five neighbours, and of each image twice. The images are of one disk.
fn each_chain<'a>(images: &[&'a [u8]], mut look: impl FnMut(Chain<'a>)) {
    for layers in 1..=5 {
        let chains = images.windows(layers).step_by(layers);
        chains.for_each(|images| look(Chain::of(images)));
    }
    let twice = images.iter().map(|image| Chain::of(&[image, image]));
    twice.for_each(look);
}

/// The answers for the first sector of each grain.
fn of_grains<'a>(chain: &'a Chain) -> impl Iterator<Item = Located> + 'a {
    let firsts = (0..chain.disk.capacity).step_by(chain.disk.grain_size as usize);
    firsts.map(|first| chain.located(first))
}

fn stored(found: &Located) -> bool {
    matches!(found.source, Source::Stored { .. })
}

fn written(write: impl FnOnce(&mut [u8]) -> Result<u64, Refusal>) -> Result<Vec<u8>, Refusal> {
    let mut output = vec![0; ROOM];
    let length = write(&mut output)?;
    output.truncate(length as usize);
    Ok(output)
}

fn normal(image: &[u8]) -> Result<Vec<u8>, Refusal> {
    written(|output| anhkhovet::normal(image, output))
}

/// The chain as one image, collapsed from the base on.
fn collapsed(chain: &Chain) -> Vec<u8> {
    let base = normal(chain.images[0]).expect("written");
    chain.images[1..].iter().fold(base, |lower, upper| {
        let written = written(|output| anhkhovet::collapse(&lower, upper, output));
        written.expect("written")
    })
}

/// The same file sector may serve in two layers, but never twice in one.
#[test]
fn no_answers_name_one_layer_and_one_file_sector() {
    let (mut chains, mut layers) = (0, [0; 5]);
    for alike in accepted(0..IMAGES) {
        let images: Vec<&[u8]> = alike.iter().map(|(_, image)| image.as_slice()).collect();
        each_chain(&images, |chain| {
            assert_eq!(chain.twice(), None);
            chains += 1;
            for found in of_grains(&chain).filter(stored) {
                layers[found.layer as usize] += 1;
            }
        });
    }
    println!("{chains} chains, stored grains by layer {layers:?}");
    assert!(chains > 200 && layers.iter().all(|&grains| grains > 100));
}

#[test]
fn collapsed_images_store_as_many_grains_as_their_chains_answer() {
    let (mut chains, mut hidden) = (0, 0);
    for alike in accepted(0..IMAGES) {
        let images = alike.iter().map(|(_, image)| image.as_slice());
        // Those that can be collapsed: KDMV, uncompressed, and not still open.
        let images: Vec<&[u8]> = images.filter(|image| normal(image).is_ok()).collect();
        each_chain(&images, |chain| {
            let image = collapsed(&chain);
            let survey = anhkhovet::survey(&image, &[image.len() as u64]).expect("one image");
            let answers = of_grains(&chain).filter(stored).count() as u64;
            assert_eq!(survey.totals.stored, answers);
            let own = chain.images.iter().map(|layer| {
                let layer = Chain::of(&[layer]);
                let stored = of_grains(&layer).filter(stored).count();
                stored as u64
            });
            hidden += own.sum::<u64>() - answers;
            chains += 1;
        });
    }
    println!("{chains} chains, {hidden} stored grains hidden");
    assert!(chains > 100 && hidden > 100);
}
