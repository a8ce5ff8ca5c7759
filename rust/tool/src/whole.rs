//! One digest of a whole disk: SHA-256 of all its sectors in order, zeros where they are zero or absent, as of a raw copy.

use crate::difference::{Difference, Fault};
use crate::failure::{Failure, Status};
use crate::files::Files;
use crate::formats::{self, Format, Name};
use crate::given::Given;
use crate::grains::Grains;
use crate::hash::{Hash, Hasher, Piece};
use crate::lines::{Content, Lines};
use crate::names;
use crate::print;
use crate::progress::Progress;
use anhkhovet::{Located, Source, SECTOR};
use serde_json::{json, Value};
use sha2::{Digest, Sha256};
use std::path::{Path, PathBuf};

const PACKED: &str =
    "has packed grains, which are not unpacked here, so the disk's own bytes cannot be given";

/// Where a sector comes from, if that is not a packed grain.
pub fn unpacked(given: &mut Given, sector: u64) -> Result<Located, Failure> {
    let found = given.locate(sector)?;
    match found.source {
        Source::Packed { .. } => {
            given.same()?;
            let file = given.holder(&found).file.unwrap_or_default();
            Err(Failure::Lacking(file, PACKED))
        }
        _ => Ok(found),
    }
}

/// The digest of all pieces, each of them a grain, or the last one's part.
pub fn hashed(
    files: &Files,
    cut: &Grains,
    mut piece: impl FnMut(u64, u64) -> Result<Piece, Failure>,
) -> Result<Hash, Failure> {
    let mut hasher = Hasher::new(files);
    let mut hash = Sha256::new();
    let mut first = 0;
    while first < cut.capacity() {
        let sectors = cut.around(first).end - first;
        hasher.add(&piece(first, sectors)?, &mut hash)?;
        first += sectors;
    }
    Ok(hash.finalize().into())
}

/// The digest, if the files are unchanged.
fn digest(given: &mut Given, cut: &Grains) -> Result<Hash, Failure> {
    let progress = Progress::start("digesting", cut.capacity());
    let hash = hashed(&given.files(), cut, |first, sectors| {
        progress.at(first);
        unpacked(given, first)?;
        Piece::of(given, first, sectors)
    })?;
    given.same()?;
    Ok(hash)
}

/// How the digest is told, or the list that it is compared with.
pub struct Asked {
    pub list: Option<PathBuf>,
    pub format: Format,
}

pub fn whole(paths: &[PathBuf], asked: &Asked, json: bool) -> Result<(), Failure> {
    let mut given = Given::open(paths)?;
    let cut = given.grains()?;
    let hash = digest(&mut given, &cut)?;
    let bytes = cut.capacity() * SECTOR;
    match &asked.list {
        Some(list) => compare(&given, list, (bytes, hash), json),
        None if json => print::members(|object| {
            object.member("bytes", &bytes)?;
            object.member("digest", &names::hex(&hash))?;
            given.tell_files(object)?;
            object.member("of", "disk")
        }),
        None => {
            let mut text = asked.format.heading().as_bytes().to_vec();
            asked.format.put(&mut text, Name::Disk, bytes, &hash);
            print::bytes(&text)
        }
    }
}

/// Why a line is not that of a disk of so many bytes with this digest, or nothing.
fn fault(content: Content, (bytes, hash): (u64, Hash)) -> Option<Fault> {
    let formats::Line {
        name,
        hash: listed,
        bytes: size,
    } = match content {
        Content::Entry(line) => line,
        Content::Malformed => return Some(Fault::Form),
        Content::Binary => return Some(Fault::Text),
    };
    let unit = |named| Some(Fault::Unit(named, "the whole disk is"));
    match name {
        Name::Plain(_) | Name::Sector(_) => unit("a sector"),
        Name::Grain(_) | Name::Packed(_) => unit("a grain"),
        // Whoever has a raw copy calls it anything.
        Name::Disk | Name::Other => match size {
            Some(size) if size != bytes => Some(Fault::Size(size, bytes)),
            _ if listed != hash => Some(Fault::Digest(names::hex(&listed), names::hex(&hash))),
            _ => None,
        },
    }
}

/// Compares with each line of a list.
fn compare(given: &Given, list: &Path, disk: (u64, Hash), json: bool) -> Result<(), Failure> {
    let mut lines = Lines::open(list)?;
    let (mut count, mut differences, mut ended) = (0, Vec::new(), false);
    while let (false, Some(content)) = (ended, lines.next()?) {
        count += 1;
        ended = matches!(content, Content::Binary);
        differences.extend(fault(content, disk).map(|fault| Difference {
            line: lines.number,
            sector: None,
            fault,
        }));
    }
    let holds = count > 0 && differences.is_empty();
    print::answer(
        json,
        || told(list, count, &differences),
        || {
            let differences: Vec<Value> = differences.iter().map(Difference::object).collect();
            let mut object = json!({
                "agree": holds,
                "compared": count,
                "differences": differences,
                "digest": names::hex(&disk.1),
                "of": "disk",
            });
            for (key, value) in given.remarks() {
                object[key] = value;
            }
            object
        },
    )?;
    if holds {
        Ok(())
    } else {
        Err(Failure::Told(Status::Differs))
    }
}

fn told(list: &Path, count: u64, differences: &[Difference]) -> String {
    let list = names::name(list);
    let mut text = String::new();
    for difference in differences {
        text += &format!("{list}: {}\n", difference.text());
    }
    let summary = match (count, differences.len()) {
        (0, _) => "there is no line to compare with".to_string(),
        (1, 0) => "the disk's digest agrees".to_string(),
        (count, 0) => format!("the disk's digest agrees with all {count} lines"),
        (count, failed) => format!("{failed} of {count} lines fail"),
    };
    text + &format!("{list}: {summary}\n")
}
