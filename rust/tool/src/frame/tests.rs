//! Own bytes answer as the whole file does: check, survey, lookups, places, chains and moves of images that are whole, cut and
//! damaged.

use crate::entries;
use crate::failure::Failure;
use crate::files::Layers;
use crate::frame::made::image;
use crate::layer::Layer;
use crate::mended::NOT_MENDABLE;
use crate::room::{Kind, Room};
use crate::still_open::STILL_OPEN;
use crate::survey::counted;
use anhkhovet::{ChainRefusal, Group, Refusal, Side, Source, CHANGE, SECTOR};
use std::collections::BTreeMap;
use std::fs;
use std::path::{Path, PathBuf};

/// Enough that every kind of damage meets every kind of image many times.
const IMAGES: u64 = 1200;
/// More than an image has.
const GRAINS: usize = 1200;
/// Layers of a chain.
const CHAIN: usize = 3;

/// A folder that goes when the test ends, with all images in it: their times are then old enough not to be waited for.
struct Folder(PathBuf);

impl Folder {
    fn new() -> Folder {
        let name = format!("anhkhovet-own-{}", std::process::id());
        let folder = Folder(std::env::temp_dir().join(name));
        fs::create_dir(&folder.0).expect("a folder of its own");
        for seed in 0..IMAGES {
            fs::write(folder.at(seed), image(seed)).expect("written");
        }
        folder
    }

    fn at(&self, seed: u64) -> PathBuf {
        self.0.join(seed.to_string())
    }
}

impl Drop for Folder {
    fn drop(&mut self) {
        let _ = fs::remove_dir_all(&self.0);
    }
}

fn why(failure: Failure) -> Refusal {
    match failure {
        Failure::Refused(refusal) => refusal.why,
        other => panic!("no refusal: {other}"),
    }
}

/// What was met, so that no kind of image is missing unseen.
#[derive(Debug, Default)]
struct Met {
    accepted: u64,
    /// By number: of checks, and of moves to KDMV from COWD.
    refused: BTreeMap<u64, u64>,
    unmoved: BTreeMap<u64, u64>,
    moved: u64,
    /// Of 8, by the part that is named.
    outside: [u64; 5],
    /// Sectors that have an answer in an image whose frame is refused.
    broken: u64,
    packed: u64,
    /// Sectors of a packed grain at sector 1, which an entry of 1 names.
    at_one: u64,
    chains: u64,
    /// Images that were still open, and those of them that have no normal form for it.
    open: u64,
    unfinished: u64,
    /// Sides from which there is nothing to mend, those of images with open and with packed grains that are mended, and others.
    alike: u64,
    mended: [u64; 2],
    unmendable: u64,
}

impl Met {
    fn judged(&mut self, path: &Path, whole: &[u8]) {
        let mut layers = Layers::one(path).expect("layers");
        let header = anhkhovet::header(whole);
        assert_eq!(anhkhovet::header(layers.bytes(0)), header, "{path:?}");
        self.open += u64::from(header.map_or(false, |header| header.still_open()));
        let told = layers.ask(0, anhkhovet::check).expect("a file");
        assert_eq!(told, anhkhovet::check(whole), "{path:?}");
        match told {
            Ok(_) => self.accepted += 1,
            Err(refusal) => {
                *self.refused.entry(refusal.number).or_default() += 1;
                if let Some(part) = refusal.part() {
                    self.outside[part as usize] += 1;
                }
            }
        }
        let mut frame = anhkhovet::frame(whole).unwrap_or_default();
        frame.retain(|area| area.group != Group::Descriptor);
        assert_eq!(layers.frame(0), frame, "{path:?}");
        let mut layers = Layers::one(path).expect("layers");
        let told = layers.ask(0, counted).expect("a file");
        assert_eq!(told, counted(whole), "{path:?}");
        let mut layers = Layers::one(path).expect("layers");
        let told = layers.ask(0, |image| anhkhovet::normal(image, &mut []));
        let wanted = anhkhovet::normal(whole, &mut []);
        assert_eq!(told.expect("a file"), wanted, "{path:?}");
        let unfinished = matches!(wanted, Err(refusal) if refusal.number == STILL_OPEN);
        self.unfinished += u64::from(unfinished);
    }

    /// To either kind: the answer, without a byte of any grain; from COWD also the length, and what stands before the grains.
    fn moved(&mut self, path: &Path, whole: &[u8]) {
        let mut layers = Layers::to_move(Layer::open(path).expect("a file")).expect("layers");
        for to_move in [anhkhovet::to_kdmv, anhkhovet::to_cowd] {
            let told = layers.ask(0, |image| to_move(image, &mut []));
            assert_eq!(told.expect("a file"), to_move(whole, &mut []), "{path:?}");
        }
        if !whole.starts_with(b"COWD") {
            return;
        }
        let why = anhkhovet::to_kdmv(whole, &mut []).expect_err("no room");
        *self.unmoved.entry(why.number).or_default() += 1;
        if why.number == 21 {
            let images = [layers.bytes(0)];
            let room = Room::of(Kind::Kdmv, &images).expect("a header");
            let length = room.counted().expect("counted");
            let mut outs = [(); 2].map(|()| vec![7; length as usize]);
            assert_eq!(anhkhovet::to_kdmv(whole, &mut outs[0]), Ok(length));
            assert_eq!(anhkhovet::to_kdmv(images[0], &mut outs[1]), Ok(length));
            assert!(length <= room.most(), "{path:?}");
            let front = room.length(0) as usize;
            assert!(outs[0][..front] == outs[1][..front], "{path:?}");
            self.moved += u64::from(length as usize > front);
        }
    }

    /// From either side: the answer, the list, and the own bytes that stand for the file's.
    fn mended(&mut self, path: &Path, whole: &[u8]) {
        for good in [Side::Primary, Side::Redundant] {
            let mut layers = Layers::one(path).expect("layers");
            let mut bytes = whole.to_vec();
            let mut lists = [[7; CHANGE * GRAINS]; 2];
            let wanted = anhkhovet::mend(&mut bytes, good, &mut lists[0]);
            let told = layers.mend(good, &mut lists[1]).expect("a file");
            assert_eq!(told, wanted, "{path:?} {good:?}");
            assert_eq!(lists[0], lists[1], "{path:?} {good:?}");
            for area in layers.frame(0) {
                let at = (area.first * SECTOR) as usize;
                let part = at..at + (area.sectors * SECTOR) as usize;
                assert_eq!(
                    layers.bytes(0)[part.clone()],
                    bytes[part],
                    "{path:?} {good:?}"
                );
            }
            match wanted {
                Ok(0) => self.alike += 1,
                Ok(_) => self.mended[usize::from(entries::packed(whole))] += 1,
                Err(refusal) => self.unmendable += u64::from(refusal.number == NOT_MENDABLE),
            }
        }
    }

    fn located(&mut self, path: &Path, whole: &[u8]) {
        let mut layers = Layers::one(path).expect("layers");
        let broken = layers.frame(0).is_empty();
        for sector in (0..9002).step_by(3) {
            let found = layers.locate(sector).map(|found| found.source);
            let wanted = anhkhovet::lookup(whole, sector);
            assert_eq!(found.map_err(why), wanted, "{path:?} {sector}");
            let place = anhkhovet::read_part(whole, sector);
            assert_eq!(
                layers.place(0, sector),
                place.start as u64..place.end as u64,
                "{path:?} {sector}"
            );
            self.broken += u64::from(broken && wanted.is_ok());
            self.packed += u64::from(matches!(wanted, Ok(Source::Packed { .. })));
            self.at_one += u64::from(matches!(wanted, Ok(Source::Packed { sector: 1, .. })));
        }
    }

    fn chained(&mut self, paths: &[PathBuf]) {
        let mut layers = Layers::open(paths).expect("layers");
        let images: Vec<Vec<u8>> = paths
            .iter()
            .map(|path| fs::read(path).expect("an image"))
            .collect();
        let lengths: Vec<u64> = images.iter().map(|image| image.len() as u64).collect();
        let whole = images.concat();
        for sector in (0..9002).step_by(7) {
            let found = layers.locate(sector).map_err(why);
            let wanted = anhkhovet::chain(&whole, &lengths, sector);
            self.chains += u64::from(wanted.is_ok());
            let wanted = wanted.map_err(|ChainRefusal { refusal, .. }| refusal);
            assert_eq!(found, wanted, "{paths:?} {sector}");
        }
    }
}

#[test]
fn own_bytes_answer_as_the_whole_file() {
    let folder = Folder::new();
    let mut met = Met::default();
    for seed in 0..IMAGES {
        let path = folder.at(seed);
        let whole = fs::read(&path).expect("an image");
        met.judged(&path, &whole);
        met.moved(&path, &whole);
        met.mended(&path, &whole);
        met.located(&path, &whole);
    }
    for seed in (0..IMAGES - CHAIN as u64).step_by(CHAIN) {
        let paths: Vec<PathBuf> = (seed..).take(CHAIN).map(|seed| folder.at(seed)).collect();
        met.chained(&paths);
    }
    println!("{met:?}");
    let all = [1, 2, 3, 5, 6, 7, 8, 9, 10, 11, 12, 43];
    assert!(
        all.iter().all(|number| met.refused.contains_key(number)),
        "{met:?}"
    );
    let all = [1, 3, 6, 8, 9, 12, 21, 27, 44];
    assert!(
        all.iter().all(|number| met.unmoved.contains_key(number)),
        "{met:?}"
    );
    assert!(met.outside.iter().all(|&part| part > 0), "{met:?}");
    assert!(
        met.accepted > IMAGES / 4
            && met.moved > 50
            && met.broken > 1000
            && met.packed > 1000
            && met.at_one > 100
            && met.chains > 1000
            && met.open > 100
            && met.unfinished > 10
            && met.alike > 100
            && met.mended.iter().all(|&mended| mended > 25)
            && met.unmendable > 100
    );
}
