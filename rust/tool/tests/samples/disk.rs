//! A sample disk, looked up and read through the proved library.

use anhkhovet::{chain, check, header, lookup, read, ChainRefusal, Located, Source, SECTOR};
use flate2::read::ZlibDecoder;
use std::fs;
use std::io::Read;
use std::path::PathBuf;

pub fn path(name: &str) -> PathBuf {
    PathBuf::from(concat!(env!("CARGO_MANIFEST_DIR"), "/../../samples")).join(name)
}

pub fn bytes(name: &str) -> Vec<u8> {
    fs::read(path(name)).unwrap_or_else(|error| panic!("{name}: {error}"))
}

pub fn text(name: &str) -> String {
    String::from_utf8(bytes(name)).unwrap()
}

/// A part of a disk that one chain of layers serves, base first.
pub struct Extent {
    pub sectors: u64,
    layers: Vec<u8>,
    lengths: Vec<u64>,
}

impl Extent {
    /// The chain of these files.
    pub fn new(names: &[String]) -> Extent {
        let layers: Vec<Vec<u8>> = names.iter().map(|name| bytes(name)).collect();
        Extent::of(&layers)
    }

    /// The chain of these images, each of which is accepted.
    pub fn of(layers: &[Vec<u8>]) -> Extent {
        let disk = header(&layers[0]).unwrap().disk;
        for layer in layers {
            assert_eq!(check(layer), Ok(disk));
        }
        Extent {
            sectors: disk.capacity,
            layers: layers.concat(),
            lengths: layers.iter().map(|layer| layer.len() as u64).collect(),
        }
    }

    /// How many layers there are.
    pub fn height(&self) -> u64 {
        self.lengths.len() as u64
    }

    fn layer(&self, number: u64) -> &[u8] {
        let number = number as usize;
        let from: u64 = self.lengths[..number].iter().sum();
        &self.layers[from as usize..(from + self.lengths[number]) as usize]
    }

    /// The chain's answer, which for one layer is the lookup's.
    pub fn look(&self, sector: u64) -> Result<Located, ChainRefusal> {
        let located = chain(&self.layers, &self.lengths, sector);
        if self.height() == 1 {
            let source = located.map(|located| located.source);
            let source = source.map_err(|refused| refused.refusal);
            assert_eq!(source, lookup(&self.layers, sector));
        }
        located
    }
}

/// Reads sectors, and keeps the last packed grain that it unpacked: its layer and marker, and its bytes.
#[derive(Default)]
pub struct Reader {
    unpacked: Option<(u64, u64)>,
    bytes: Vec<u8>,
}

impl Reader {
    /// The bytes of a sector that was located; nothing where they are zeros by the entry.
    pub fn read<'a>(
        &'a mut self,
        extent: &'a Extent,
        sector: u64,
        at: &Located,
    ) -> Option<&'a [u8]> {
        let part = read(extent.layer(at.layer), sector);
        match at.source {
            Source::Absent | Source::Zero => {
                assert!(part.is_empty());
                None
            }
            Source::Stored { .. } => Some(part),
            Source::Packed {
                sector: marker,
                offset,
                ..
            } => {
                if self.unpacked != Some((at.layer, marker)) {
                    self.unpacked = Some((at.layer, marker));
                    self.bytes.clear();
                    ZlibDecoder::new(part).read_to_end(&mut self.bytes).unwrap();
                }
                let from = (offset * SECTOR) as usize;
                Some(&self.bytes[from..from + SECTOR as usize])
            }
        }
    }
}
