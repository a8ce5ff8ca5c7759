//! The lookup in one image and in a chain of sixteen layers.

use crate::check::Input;
use crate::image::{up, Image, GRAIN};
use crate::machine::page_faults;
use crate::map::Map;
use crate::report::{grouped, Figure, Report};
use crate::timing::{best, keep};
use crate::{agree, side, Outcome, Setup, SEED};
use compare::rng::Rng;
use plain::Located;
use std::fs::File;
use std::io;

const LAYERS: u64 = 16;

/// A number for all answers, so that two sides' can be compared after the time was taken.
fn told(sectors: &[u64], answer: impl Fn(u64) -> Located) -> u64 {
    sectors.iter().fold(0, |sum: u64, sector| {
        let located = answer(*sector);
        let kind = located.number << 8 | located.kind << 4 | located.layer;
        sum.wrapping_mul(31)
            .wrapping_add(kind << 40 | located.sector)
    })
}

fn count(setup: &Setup) -> u64 {
    if setup.quick {
        10_000
    } else {
        1_000_000
    }
}

pub fn measure(setup: &Setup, input: &Input, report: &mut Report) -> Outcome {
    setup.progress("lookup");
    let mut rng = Rng::new(SEED, 1);
    let count = count(setup);
    let sectors: Vec<u64> = (0..count).map(|_| rng.below(input.capacity)).collect();
    touched(input, &sectors[..2_000], report)?;
    let map = Map::scattered(&File::open(&input.path)?)?;
    let image: &[u8] = &map;
    let ours = || told(&sectors, |sector| side::lookup(image, sector));
    let theirs = || told(&sectors, |sector| plain::lookup(image, sector));
    agree("lookup", &ours(), &theirs())?;

    let label = format!("{}; {} sectors at random", input.label(), grouped(count));
    let each = |time| Ok(Figure::each(time, count, " each"));
    report.measure("lookup", &label, &each(best(setup.rounds, ours)));
    report.against("plain", &each(best(setup.rounds, theirs)));

    // qemu-img has no lookup of one sector. What it has lists the whole image, which here is a lookup of each grain.
    let grains: Vec<u64> = (0..input.entries()).map(|grain| grain * GRAIN).collect();
    let time = best(setup.rounds, || {
        told(&grains, |sector| side::lookup(image, sector))
    });
    let label = format!("{}; a sector of each grain, in order", input.label());
    report.measure("lookup", &label, &Ok(Figure::whole(time)));
    let time = best(setup.rounds, || {
        told(&grains, |sector| plain::lookup(image, sector))
    });
    report.against("plain", &Ok(Figure::whole(time)));
    let path = input.path.as_os_str();
    let arguments = ["map".as_ref(), "--output=json".as_ref(), path];
    let qemu = setup.qemu.best(&arguments, || {});
    report.against("`qemu-img map`, whole process", &qemu);
    Ok(())
}

/// The pages that lookups touch in a file that was mapped just now. Header, directory and tables are few of them: one for
/// each lookup would mean that the grains are read too, from the disk where the image lies on one.
fn touched(input: &Input, sectors: &[u64], report: &mut Report) -> Outcome {
    let faults = |lookup: fn(&[u8], u64) -> Located| -> io::Result<u64> {
        let map = Map::scattered(&File::open(&input.path)?)?;
        let before = page_faults()?;
        keep(&told(sectors, |sector| lookup(&map, sector)));
        Ok(page_faults()? - before)
    };
    report.note(format!(
        "Lookup, the first {} sectors in a file mapped just now: {} page faults, plain {}.",
        grouped(sectors.len() as u64),
        grouped(faults(side::lookup)?),
        grouped(faults(plain::lookup)?)
    ));
    Ok(())
}

/// The layers of a chain, end to end, and what was stored where.
struct Chain {
    capacity: u64,
    map: Map,
    lengths: Vec<u64>,
    /// The topmost layer that holds each grain; LAYERS where none does.
    holders: Vec<u64>,
}

impl Chain {
    fn new(setup: &Setup, capacity: u64) -> io::Result<Chain> {
        let mut rng = Rng::new(SEED, 2);
        let grains = up(capacity, GRAIN);
        let holders: Vec<u64> = (0..grains).map(|_| rng.below(LAYERS + 1)).collect();
        let layers: Vec<Image> = (0..LAYERS)
            .map(|layer| {
                Image::new(capacity, "layer.vmdk", None, |grain| {
                    holders[grain as usize] == layer
                })
            })
            .collect();
        let lengths: Vec<u64> = layers.iter().map(Image::length).collect();
        let file = setup.folder.create("chain", lengths.iter().sum())?;
        let mut at = 0;
        for layer in &layers {
            layer.save(&file, at)?;
            at += layer.length();
        }
        Ok(Chain {
            capacity,
            map: Map::new(&file)?,
            lengths,
            holders,
        })
    }
}

pub fn measure_chain(setup: &Setup, report: &mut Report) -> Outcome {
    setup.progress("chain lookup");
    let (capacity, size) = if setup.quick {
        (1 << 17, "64 MiB")
    } else {
        (1 << 22, "2 GiB")
    };
    let chain = Chain::new(setup, capacity)?;
    type Wanted = (&'static str, fn(u64) -> bool);
    let places: [Wanted; 3] = [
        ("at random", |_| true),
        ("that the top layer holds", |holder| holder == LAYERS - 1),
        ("that no layer holds", |holder| holder == LAYERS),
    ];
    for (place, wanted) in places {
        let mut rng = Rng::new(SEED, 3);
        let count = count(setup);
        let sectors: Vec<u64> = std::iter::repeat_with(|| rng.below(chain.capacity))
            .filter(|sector| wanted(chain.holders[(sector / GRAIN) as usize]))
            .take(count as usize)
            .collect();
        let (layers, lengths): (&[u8], &[u64]) = (&chain.map, &chain.lengths);
        let ours = || told(&sectors, |sector| side::chain(layers, lengths, sector));
        let theirs = || told(&sectors, |sector| plain::chain(layers, lengths, sector));
        agree("chain", &ours(), &theirs())?;
        for sector in &sectors[..100] {
            let located = plain::chain(layers, lengths, *sector);
            let holder = chain.holders[(sector / GRAIN) as usize];
            agree("chain", &located.layer, &(holder % LAYERS))?;
        }

        let label = format!(
            "{LAYERS} layers of {size}; {} sectors {place}",
            grouped(count)
        );
        let each = |time| Ok(Figure::each(time, count, " each"));
        report.measure("chain lookup", &label, &each(best(setup.rounds, ours)));
        report.against("plain", &each(best(setup.rounds, theirs)));
    }
    Ok(())
}
