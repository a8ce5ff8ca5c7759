//! What is told of mended images: what each entry means, which sectors read otherwise, and why others cannot be mended.

use super::{other, Mended};
use crate::differing::{Differing, How};
use crate::failure::Failure;
use crate::files::Layers;
use crate::frame::made::image;
use anhkhovet::{Side, Source, CHANGE, SECTOR};
use std::collections::BTreeMap;
use std::fs;
use std::path::{Path, PathBuf};

const IMAGES: u64 = 1200;
const CAPACITY: u64 = 8997;
const GRAIN: u64 = 8;

/// A folder that goes when the test ends.
struct Folder(PathBuf);

impl Drop for Folder {
    fn drop(&mut self) {
        let _ = fs::remove_dir_all(&self.0);
    }
}

/// The image mended by the library, all of it at once; nothing where it cannot be.
fn mended(whole: &[u8], good: Side) -> Option<Vec<u8>> {
    let mut bytes = whole.to_vec();
    let mut list = vec![0; CHANGE * CAPACITY as usize];
    anhkhovet::mend(&mut bytes, good, &mut list).ok()?;
    Some(bytes)
}

/// How a sector reads otherwise in the one image than in the other.
fn how(before: &[u8], after: &[u8], sector: u64) -> Option<How> {
    let packed = |image| matches!(anhkhovet::lookup(image, sector), Ok(Source::Packed { .. }));
    let bytes = |image| match anhkhovet::read(image, sector) {
        [] => vec![0; SECTOR as usize],
        bytes => bytes.to_vec(),
    };
    if anhkhovet::lookup(before, sector).is_err() {
        return Some(How::Refused);
    }
    if bytes(before) == bytes(after) {
        return None;
    }
    Some(match packed(before) || packed(after) {
        true => How::Packed,
        false => How::Bytes,
    })
}

fn word(source: Result<Source, anhkhovet::Refusal>) -> String {
    match source {
        Ok(source) => crate::source::word(source).to_string(),
        Err(refusal) => format!("refused {}", refusal.number),
    }
}

/// How often what was told and compared.
#[derive(Debug, Default)]
struct Met(BTreeMap<String, u64>);

impl Met {
    fn add(&mut self, what: String) {
        *self.0.entry(what).or_default() += 1;
    }

    /// `before` serves what the entries meant that are gone, `after` what the new ones mean.
    fn meanings(&mut self, told: &mut Mended, before: Option<&[u8]>, after: &[u8]) {
        let mut changes = 0;
        for changed in told.changes() {
            let changed = changed.expect("a change");
            changes += 1;
            assert_eq!(changed.first, GRAIN * changed.grain);
            assert_eq!(changed.sectors, GRAIN.min(CAPACITY - changed.first));
            assert_eq!(changed.new.source, anhkhovet::lookup(after, changed.first));
            self.add(format!("new: {}", word(changed.new.source)));
            if let Some(before) = before {
                let source = anhkhovet::lookup(before, changed.first);
                assert_eq!(changed.old.source, source);
                self.add(format!("old: {}", word(source)));
            }
        }
        assert_eq!(changes, told.count);
    }

    fn otherwise(&mut self, told: &mut Mended, before: &[u8], after: &[u8]) {
        let runs = Differing::of(told).expect("a file").runs;
        for pair in runs.windows(2) {
            let end = pair[0].first + pair[0].sectors;
            assert!(end <= pair[1].first && (end < pair[1].first || pair[0].how != pair[1].how));
        }
        let mut sectors = vec![None; CAPACITY as usize];
        for run in runs {
            let (first, end) = (run.first as usize, (run.first + run.sectors) as usize);
            sectors[first..end].fill(Some(run.how));
        }
        for (sector, told) in (0..).zip(sectors) {
            let wanted = how(before, after, sector);
            assert_eq!(told, wanted, "sector {sector}");
            self.add(format!("otherwise: {wanted:?}"));
        }
    }

    fn judge(&mut self, path: &Path, whole: &[u8], good: Side) {
        let layers = Layers::one(path).expect("layers");
        let after = mended(whole, good);
        let turned = mended(whole, other(good));
        match Mended::of(layers, good) {
            Ok(mut told) => {
                assert_eq!(told.either, turned.is_some());
                let after = after.expect("mended too");
                let before = match good {
                    Side::Redundant => Some(whole),
                    // Mended the other way, the primary tables have what the redundant ones had.
                    Side::Primary => turned.as_deref(),
                };
                self.meanings(&mut told, before, &after);
                if good == Side::Redundant {
                    self.otherwise(&mut told, whole, &after);
                }
            }
            Err(Failure::Refused(refusal)) => {
                assert_eq!(after, None);
                if refusal.why.number == 40 {
                    let also = refusal.detail.contains(" tables it can be mended");
                    assert_eq!(also, turned.is_some(), "{}", refusal.detail);
                    self.add(ground(whole, good, &refusal.detail));
                }
            }
            Err(failure) => panic!("{failure}"),
        }
    }
}

/// An entry of a directory, by its sector.
fn entry(image: &[u8], directory: u64, number: u64) -> u64 {
    let at = (directory * SECTOR + 4 * number) as usize;
    u32::from_le_bytes(image[at..at + 4].try_into().expect("four bytes")).into()
}

fn number(image: &[u8], at: usize) -> u64 {
    u64::from_le_bytes(image[at..at + 8].try_into().expect("eight bytes"))
}

/// The entries of both directories that are in use.
fn directories(image: &[u8]) -> Vec<(u64, u64)> {
    let primary = match number(image, 56) {
        u64::MAX => number(image, (image.len() / 512 - 2) * 512 + 56),
        sector => sector,
    };
    let redundant = number(image, 48);
    let both = |index| (entry(image, primary, index), entry(image, redundant, index));
    let held = number(image, 20) * 512;
    let used = (number(image, 12) + held - 1) / held;
    (0..used).map(both).collect()
}

/// Another first entry in the redundant directory, if there is one: none, or the primary's.
fn turn(image: &mut [u8], turned: u64) {
    let whole = anhkhovet::check(image).is_ok();
    let redundant = if whole { number(image, 48) } else { 0 };
    if redundant > 0 {
        let entry = if turned % 2 == 0 {
            0
        } else {
            directories(image)[0].0
        };
        let at = (redundant * SECTOR) as usize;
        image[at..at + 4].copy_from_slice(&(entry as u32).to_le_bytes());
    }
}

/// Which ground is told, once it is seen to be one.
fn ground(image: &[u8], good: Side, detail: &str) -> String {
    if detail.starts_with("it has no redundant directory") {
        assert_eq!(number(image, 48), 0);
        return "none".to_string();
    }
    if let Some(sector) = detail.strip_prefix("file sector ") {
        let sector: String = sector.chars().take_while(char::is_ascii_digit).collect();
        let sector: u64 = sector.parse().expect("a number");
        let frame = anhkhovet::frame(image).expect("a frame");
        let holding =
            |area: &&anhkhovet::Area| (area.first..area.first + area.sectors).contains(&sector);
        assert!(frame.iter().filter(holding).count() > 1, "{detail}");
        return "meeting".to_string();
    }
    let none = if image[8] & 4 == 0 { 1 } else { 2 };
    let unpaired = |&(one, another): &(u64, u64)| {
        (one < none) != (another < none) || one < none && one != another
    };
    if detail.starts_with("its directories do not name tables in the same places") {
        assert!(directories(image).iter().any(unpaired), "{detail}");
        return "unpaired".to_string();
    }
    assert!(!directories(image).iter().any(unpaired), "{detail}");
    let mut changed = image.to_vec();
    for (primary, redundant) in directories(image).into_iter().filter(|both| both.0 >= none) {
        let (from, to) = match good {
            Side::Primary => (primary, redundant),
            Side::Redundant => (redundant, primary),
        };
        let at = |sector: u64| (sector * SECTOR) as usize;
        changed.copy_within(at(from)..at(from + 4), at(to));
    }
    let why = anhkhovet::check(&changed).expect_err("refused");
    assert!(
        detail.starts_with(&format!("so mended it would be {why}")),
        "{detail}"
    );
    format!("refused {}", why.number)
}

#[test]
fn what_is_told_is_so() {
    let folder =
        Folder(std::env::temp_dir().join(format!("anhkhovet-mended-{}", std::process::id())));
    fs::create_dir(&folder.0).expect("a folder of its own");
    let paths: Vec<PathBuf> = (0..IMAGES)
        .map(|seed| folder.0.join(seed.to_string()))
        .collect();
    for (seed, path) in (0..).zip(&paths) {
        let mut image = image(seed);
        if seed % 16 == 0 {
            turn(&mut image, seed / 16);
        }
        fs::write(path, image).expect("written");
    }
    let mut met = Met::default();
    for path in &paths {
        let whole = fs::read(path).expect("an image");
        for good in [Side::Primary, Side::Redundant] {
            met.judge(path, &whole, good);
        }
    }
    println!("{met:?}");
    let wanted = [
        ["new: absent", "new: packed", "new: stored", "new: zero"],
        ["old: absent", "old: packed", "old: stored", "old: zero"],
        [
            "old: refused 9",
            "old: refused 10",
            "refused 9",
            "refused 10",
        ],
        ["refused 12", "none", "meeting", "unpaired"],
        [
            "otherwise: None",
            "otherwise: Some(Bytes)",
            "otherwise: Some(Packed)",
            "otherwise: Some(Refused)",
        ],
    ];
    for what in wanted.concat() {
        assert!(met.0.contains_key(what), "{what}");
    }
}
