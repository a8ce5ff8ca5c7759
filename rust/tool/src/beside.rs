//! Files of extents, found by their names beside the descriptor and nowhere else.

use crate::failure::Failure;
use crate::layer::{there, Layer, UNOPENED};
use std::ffi::OsStr;
use std::fs;
use std::os::unix::ffi::OsStrExt;
use std::path::{Path, PathBuf};

/// A file's name alone: no folder stands in it, and it is none of those that every folder has.
pub fn plain_name(name: &[u8]) -> bool {
    !name.iter().any(|byte| matches!(byte, b'/' | b'\\')) && name != b"." && name != b".."
}

/// The path that is told for a name: the name itself, where it is not looked for beside the descriptor.
pub fn path(descriptor: &Path, name: &[u8]) -> PathBuf {
    let name = Path::new(OsStr::from_bytes(name));
    if plain_name(name.as_os_str().as_bytes()) {
        descriptor.with_file_name(name)
    } else {
        name.to_path_buf()
    }
}

/// Where the file of that name is, which is there and no link.
pub fn find(descriptor: &Path, name: &[u8]) -> Result<PathBuf, Failure> {
    let path = path(descriptor, name);
    if !plain_name(name) {
        return Err(Failure::unfit(
            &path,
            "has a folder in its name, and the files of extents are looked for beside the descriptor alone",
        ));
    }
    let facts = fs::symlink_metadata(&path).map_err(Failure::system(&path, UNOPENED))?;
    let found = if facts.file_type().is_symlink() {
        followed(descriptor, &path)?
    } else {
        path.clone()
    };
    there(&path)?;
    Ok(found)
}

/// Where a link leads to. It may have another name, but stands in the descriptor's folder.
fn followed(descriptor: &Path, link: &Path) -> Result<PathBuf, Failure> {
    let real = |path: &Path| fs::canonicalize(path).map_err(Failure::system(link, UNOPENED));
    let folder = match descriptor.parent() {
        Some(folder) if folder != Path::new("") => folder,
        _ => Path::new("."),
    };
    let found = real(link)?;
    if found.parent() == Some(real(folder)?.as_path()) {
        Ok(found)
    } else {
        Err(Failure::unfit(
            link,
            "is a link that leads out of the descriptor's folder, and the files of extents are looked for there alone",
        ))
    }
}

pub fn open(descriptor: &Path, name: &[u8]) -> Result<Layer, Failure> {
    let found = find(descriptor, name)?;
    Layer::open_found(&path(descriptor, name), &found)
}
