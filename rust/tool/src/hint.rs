//! What helps on after a refusal: a descriptor is no image, a COWD image can be moved, a stream that broke off can be closed,
//! lookups need few of an image's parts, copies that differ can be mended, and each image has a normal form.

use crate::described::{Described, Opened};
use crate::failure::{Failure, Refusal};
use crate::names::name;
use anhkhovet::{ExtentKind, MisplacedPart};
use std::path::Path;

const DESCRIPTOR: &str = "it is a descriptor, which `anhkhovet describe` reads";

const COPIES: &str =
    "`anhkhovet mend` lists the entries of tables that differ, and mends one side from the other in a copy";

const BROKE_OFF: &str =
    "of a download that broke off `anhkhovet close FILE -o OUT` keeps the whole grains";

const NORMAL: &str = "`anhkhovet normal FILE -o OUT` writes the normal form";

/// The refusal of COWD, but by a move.
pub const NOT_READ: u64 = 43;

const MOVE: &str = "`anhkhovet move FILE -o OUT` writes it as KDMV";

const MOVE_EXTENT: &str =
    "`anhkhovet move FILE -o OUT` writes a COWD file as KDMV, and the line of that one says SPARSE";

const SERVED: &str =
    "`anhkhovet sector`, `read`, `map` and `digest` of the image itself do without it";

/// A refusal with what could be done instead, where that is known: of a descriptor that is handed in where single images are
/// taken, of a COWD image, of a stream without its footer, of an image with a part outside the file that lookups do not need, of
/// one whose two directories or their tables differ, and of one that is not its normal form.
pub fn hinted(failure: Failure) -> Failure {
    moved_by(MOVE, failure)
}

/// An extent is COWD by its line: what its file is, nobody has looked.
fn moved_by(how: &str, failure: Failure) -> Failure {
    match failure {
        Failure::Refused(refusal) => Failure::Refused(detailed(how, refusal)),
        Failure::Extent(descriptor, extent, failure) => {
            let failure = moved_by(MOVE_EXTENT, *failure);
            Failure::Extent(descriptor, extent, Box::new(failure))
        }
        failure => failure,
    }
}

fn detailed(moved: &str, mut refusal: Refusal) -> Refusal {
    let hint = match (refusal.why.number, &refusal.file) {
        (2, Some(file)) => hint(file),
        (7, _) => BROKE_OFF.to_string(),
        (8, _) => refusal.why.part().map_or("", without).to_string(),
        (11, _) => COPIES.to_string(),
        (42, _) => NORMAL.to_string(),
        (NOT_READ, _) => moved.to_string(),
        _ => String::new(),
    };
    let parts = [refusal.detail, hint];
    let parts: Vec<&str> = parts
        .iter()
        .map(String::as_str)
        .filter(|part| !part.is_empty())
        .collect();
    refusal.detail = parts.join("; ");
    refusal
}

/// What does without a part of an image: lookups go by the directory and its tables.
fn without(part: MisplacedPart) -> &'static str {
    match part {
        MisplacedPart::Directory | MisplacedPart::PrimaryTable => "",
        MisplacedPart::Descriptor
        | MisplacedPart::RedundantDirectory
        | MisplacedPart::RedundantTable => SERVED,
    }
}

/// Nothing where the file is no descriptor.
fn hint(path: &Path) -> String {
    match Opened::at(path) {
        Ok(Opened::Descriptor(disk)) => format!("{DESCRIPTOR}; {}", instead(&disk)),
        Err(Failure::Refused(_)) => DESCRIPTOR.to_string(),
        Ok(Opened::Image(_)) | Err(_) => String::new(),
    }
}

fn instead(disk: &Described) -> String {
    let image = |extent: &usize| {
        let kind = disk.extents[*extent].kind;
        matches!(kind, ExtentKind::Sparse | ExtentKind::VmfsSparse)
    };
    let files: Vec<String> = (0..disk.extents.len())
        .filter(image)
        .filter_map(|extent| disk.path(extent))
        .map(|path| name(&path))
        .collect();
    if files.is_empty() {
        return "here single image files are taken, and none of its extents is one".to_string();
    }
    let files = files.join(", ");
    format!("here single image files are taken, and those of its extents are {files}")
}
