//! Chains of made images, and a count of every sector of their disk and their files: one lookup for each sector in each layer.
#![allow(dead_code)]

use crate::made;
use anhkhovet::{Disk, Group, Located, Source, SECTOR};
use serde_json::{json, Value};
use std::collections::{BTreeMap, HashMap};
use std::ops::Range;

/// Images of one disk, base first.
pub struct Chain<'a> {
    pub images: Vec<&'a [u8]>,
    pub disk: Disk,
    whole: Vec<u8>,
    lengths: Vec<u64>,
}

/// A made image, with its number.
pub type Made = (u64, Vec<u8>);

/// What a file sector is for, by sector.
type Marks = Vec<&'static str>;

const NOTHING: &str = "no_area";
const GRAINS: [&str; 4] = ["served", "packed", "hidden", "past_capacity"];
const AREAS: [&str; 8] = [
    "header",
    "descriptor",
    "directory",
    "redundant_directory",
    "primary_tables",
    "redundant_tables",
    "footer",
    "last_sector",
];

fn word(group: Group) -> &'static str {
    AREAS[match group {
        Group::Header => 0,
        Group::Descriptor => 1,
        Group::Directory => 2,
        Group::RedundantDirectory => 3,
        Group::PrimaryTable => 4,
        Group::RedundantTable => 5,
        Group::Footer => 6,
        Group::LastSector => 7,
    }]
}

/// The accepted ones among made images, in lists of one capacity and grain size.
pub fn accepted(seeds: Range<u64>) -> Vec<Vec<Made>> {
    let mut disks: BTreeMap<_, Vec<Made>> = BTreeMap::new();
    for seed in seeds {
        let image = made::image(seed);
        if let Ok(disk) = anhkhovet::check(&image) {
            let alike = disks.entry((disk.capacity, disk.grain_size)).or_default();
            alike.push((seed, image));
        }
    }
    disks.into_values().collect()
}

impl<'a> Chain<'a> {
    pub fn of(images: &[&'a [u8]]) -> Chain<'a> {
        Chain {
            images: images.to_vec(),
            disk: anhkhovet::header(images[0]).expect("a header").disk,
            whole: images.concat(),
            lengths: images.iter().map(|image| image.len() as u64).collect(),
        }
    }

    pub fn located(&self, sector: u64) -> Located {
        anhkhovet::chain(&self.whole, &self.lengths, sector).expect("an answer")
    }

    /// Two virtual sectors whose answers are stored, and name one layer and one file sector.
    pub fn twice(&self) -> Option<(u64, u64)> {
        let mut places = HashMap::new();
        (0..self.disk.capacity).find_map(|sector| match self.located(sector) {
            Located {
                layer,
                source: Source::Stored { sector: at },
            } => places
                .insert((layer, at), sector)
                .map(|before| (before, sector)),
            _ => None,
        })
    }

    /// The answers for these sectors by kind.
    fn kinds(&self, sectors: impl Iterator<Item = u64>) -> Value {
        let mut counts = [0u64; 4];
        for sector in sectors {
            let kind = match self.located(sector).source {
                Source::Stored { .. } => 0,
                Source::Packed { .. } => 1,
                Source::Zero => 2,
                Source::Absent => 3,
            };
            counts[kind] += 1;
        }
        let [stored, packed, zero, absent] = counts;
        let all: u64 = counts.iter().sum();
        json!({ "stored": stored, "packed": packed, "zero": zero, "absent": absent, "all": all })
    }

    /// What each sector of a layer's file is for.
    fn marks(&self, layer: usize) -> Marks {
        let image = self.images[layer];
        let mut marks = vec![NOTHING; image.len() / SECTOR as usize];
        for area in anhkhovet::frame(image).expect("a frame") {
            let sectors = area.first..area.first + area.sectors;
            mark(&mut marks, sectors, word(area.group));
        }
        for sector in 0..self.disk.capacity {
            let here = self.located(sector).layer == layer as u64;
            mark_source(image, sector, here, &mut marks);
        }
        self.mark_rest(image, &mut marks);
        marks
    }

    /// The last grain goes on past capacity, where it is stored.
    fn mark_rest(&self, image: &[u8], marks: &mut Marks) {
        let Disk {
            capacity,
            grain_size,
        } = self.disk;
        let rest = (grain_size - capacity % grain_size) % grain_size;
        if let Ok(Source::Stored { sector }) = anhkhovet::lookup(image, capacity - 1) {
            mark(marks, sector + 1..sector + 1 + rest, "past_capacity");
        }
    }

    fn row(&self, layer: usize) -> Value {
        let (image, marks) = (self.images[layer], self.marks(layer));
        let count = |word: &str| marks.iter().filter(|mark| **mark == word).count();
        let mut row = json!({
            "layer": layer,
            "no_area": count(NOTHING),
            "file_sectors": marks.len(),
            "bytes_past": image.len() % SECTOR as usize,
        });
        for word in GRAINS {
            row[word] = json!(count(word));
        }
        for word in AREAS {
            row["areas"][word] = json!(count(word));
        }
        row["other_areas"] = json!(AREAS.iter().map(|word| count(word)).sum::<usize>());
        // The check counts the sectors of all areas by itself.
        let mut list = vec![0; anhkhovet::words_needed(image.len() as u64) as usize];
        let said = anhkhovet::check_in(image, &mut list).expect("accepted");
        assert_eq!(said.marked, (marks.len() - count(NOTHING)) as u64);
        row
    }

    /// What the tool has to say of the chain.
    pub fn counted(&self) -> Value {
        let Disk {
            capacity,
            grain_size,
        } = self.disk;
        let rows: Vec<Value> = (0..self.images.len())
            .map(|layer| self.row(layer))
            .collect();
        json!({
            "capacity": capacity,
            "coverage": rows,
            "disk": {
                "sectors": self.kinds(0..capacity),
                "grains": self.kinds((0..capacity).step_by(grain_size as usize)),
            },
        })
    }
}

/// The file sectors of a virtual sector in a layer, or of the packed grain that begins there. The chain has it from here or not.
fn mark_source(image: &[u8], sector: u64, here: bool, marks: &mut Marks) {
    let word = |served| if here { served } else { "hidden" };
    match anhkhovet::lookup(image, sector).expect("an answer") {
        Source::Stored { sector: at } => mark(marks, at..at + 1, word("served")),
        Source::Packed {
            sector: at,
            size,
            offset: 0,
        } => mark(marks, at..at + (12 + size + 511) / 512, word("packed")),
        _ => {}
    }
}

/// No sector is marked twice.
fn mark(marks: &mut Marks, sectors: Range<u64>, word: &'static str) {
    for at in sectors {
        let mark = &mut marks[at as usize];
        assert_eq!(*mark, NOTHING, "file sector {at} is {word} too");
        *mark = word;
    }
}
