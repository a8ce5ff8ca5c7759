//! Extent by extent, on own bytes, the answers are the library's on all files end to end: judged or not, whole, cut and damaged.

use super::*;
use crate::described::Opened;
use crate::frame::made::image;
use anhkhovet::{Refusal, Source};
use std::collections::BTreeMap;
use std::fs;
use std::path::Path;

/// Enough that every type of extent meets every kind of image and every refusal.
const DISKS: u64 = 450;
const EXTENTS: u64 = 5;

/// A folder that goes when the test ends.
struct Folder(PathBuf);

impl Drop for Folder {
    fn drop(&mut self) {
        let _ = fs::remove_dir_all(&self.0);
    }
}

/// The line of an extent whose file is this image: of the type that fits or of another, with its capacity or nearly.
fn line(chance: u64, name: &str, image: &[u8]) -> String {
    let capacity = anhkhovet::header(image).map_or(64, |header| header.disk.capacity);
    let sectors = capacity.min(1 << 20) + u64::from(chance % 11 == 0);
    let fits = if image.starts_with(b"COWD") {
        "VMFSSPARSE"
    } else {
        "SPARSE"
    };
    match chance % 8 {
        0 => format!("RW {sectors} ZERO\n"),
        1 => format!("RW {} FLAT \"{name}\" {}\n", chance % 64 + 1, chance % 5),
        2 => format!("RDONLY {} VMFS \"{name}\"\n", chance % 300 + 1),
        3 => format!("RW {sectors} SPARSE \"{name}\"\n"),
        4 if chance % 3 == 0 => format!("NOACCESS {sectors} {fits} \"{name}\"\n"),
        _ => format!("RW {sectors} {fits} \"{name}\"\n"),
    }
}

/// A disk of some extents: its text, and their files as the library takes them.
fn made(folder: &Path, seed: u64) -> (Vec<u8>, Vec<u8>, Vec<u64>) {
    let mut text =
        "# Disk DescriptorFile\nversion=1\nCID=1\nparentCID=ffffffff\ncreateType=\"x\"\n"
            .to_string();
    let (mut files, mut lengths) = (Vec::new(), Vec::new());
    for number in 0..EXTENTS {
        let image = image(seed * EXTENTS + number);
        let chance = (seed * EXTENTS + number).wrapping_mul(0x9e37_79b9_7f4a_7c15) >> 40;
        let name = format!("{seed}-{number}");
        let line = line(chance, &name, &image);
        text += &line;
        fs::write(folder.join(name), &image).expect("written");
        let lent = if line.ends_with("ZERO\n") {
            &[]
        } else {
            &image[..]
        };
        lengths.push(lent.len() as u64);
        files.extend(lent);
    }
    fs::write(folder.join(seed.to_string()), &text).expect("written");
    (text.into_bytes(), files, lengths)
}

fn described(path: &Path) -> Described {
    match Opened::at(path).expect("a text") {
        Opened::Descriptor(disk) => disk,
        Opened::Image(_) => panic!("no descriptor"),
    }
}

fn why(failure: &Failure) -> Refusal {
    match failure.of_extent() {
        Failure::Refused(refusal) => refusal.why,
        other => panic!("no refusal: {other}"),
    }
}

/// What was met, by the number of the refusal, and by kind of source.
#[derive(Debug, Default)]
struct Met {
    refused: BTreeMap<u64, u64>,
    kinds: [u64; 4],
    whole: u64,
}

impl Met {
    /// Sectors of every extent, each asked by itself, and with all extents judged where none is refused.
    fn compare(&mut self, path: &Path, (text, files, lengths): (Vec<u8>, Vec<u8>, Vec<u64>)) {
        let extents = described(path).extents;
        let capacity: u64 = extents.iter().map(|extent| extent.sectors).sum();
        let firsts = extents.iter().map(|extent| extent.first);
        let lasts = extents
            .iter()
            .map(|extent| extent.first + extent.sectors - 1);
        let between = (0..capacity).step_by((capacity / 40 + 1) as usize);
        let mut whole = Split::whole(described(path)).expect("files");
        let judged = whole.grains().is_ok();
        self.whole += u64::from(judged);
        for sector in firsts.chain(lasts).chain(between) {
            let wanted = anhkhovet::split(&text, &files, &lengths, sector);
            let found = Split::at(described(path), sector).and_then(|mut one| one.locate(sector));
            if judged {
                let again = whole.locate(sector).expect("an answer");
                assert_eq!(
                    Ok(again),
                    found.as_ref().copied().map_err(why),
                    "{path:?} {sector}"
                );
            }
            match (&wanted, &found) {
                (Ok(wanted), Ok(found)) => {
                    assert_eq!((wanted.extent, wanted.source), (found.layer, found.source));
                    self.kinds[kind(found.source)] += 1;
                }
                (Err(wanted), Err(failure)) => {
                    assert_eq!(wanted.refusal, why(failure), "{path:?} {sector}");
                    *self.refused.entry(wanted.refusal.number).or_default() += 1;
                    assert!(!judged);
                }
                _ => panic!("{path:?} {sector}: {wanted:?} {found:?}"),
            }
        }
        let past = Split::at(described(path), capacity).err().expect("refused");
        assert_eq!(why(&past).number, 20);
    }
}

fn kind(source: Source) -> usize {
    match source {
        Source::Absent => 0,
        Source::Zero => 1,
        Source::Stored { .. } => 2,
        Source::Packed { .. } => 3,
    }
}

#[test]
fn extents_answer_as_all_files_end_to_end() {
    let name = format!("anhkhovet-split-{}", std::process::id());
    let folder = Folder(std::env::temp_dir().join(name));
    fs::create_dir(&folder.0).expect("a folder of its own");
    let made: Vec<_> = (0..DISKS).map(|seed| made(&folder.0, seed)).collect();
    let mut met = Met::default();
    for (seed, disk) in made.into_iter().enumerate() {
        met.compare(&folder.0.join(seed.to_string()), disk);
    }
    println!("{met:?}");
    let all = [1, 2, 3, 5, 6, 7, 8, 9, 10, 11, 12, 38, 39, 43, 45];
    assert!(
        all.iter().all(|number| met.refused.contains_key(number)),
        "{met:?}"
    );
    assert!(
        met.kinds.iter().all(|&count| count > 100) && met.whole > 3,
        "{met:?}"
    );
}
