//! Where an output goes, and whether it may go there.

use crate::cli::Target;
use crate::failure::Failure;
use crate::folder::Folder;
use std::ffi::{CString, OsStr};
use std::fs::{self, Metadata};
use std::io;
use std::os::unix::ffi::OsStrExt;
use std::os::unix::fs::MetadataExt;
use std::path::{Path, PathBuf};
use std::process;
use std::sync::atomic::{AtomicU64, Ordering::Relaxed};

pub struct Place {
    pub path: PathBuf,
    pub force: bool,
    pub folder: Folder,
    /// The last name of the path.
    pub name: CString,
    /// The files that are read, by device and number.
    inputs: Vec<(u64, u64)>,
}

static COUNT: AtomicU64 = AtomicU64::new(0);

/// The longest start of a name that leaves room for what is put around it, where names have at most 255 bytes.
const SHORT: usize = 200;

/// The last name of a path that can be a file's: not `..`, nor one with a slash or a dot of its own after it.
fn last_name(path: &Path) -> Option<&OsStr> {
    let name = path.file_name()?;
    let whole = path.as_os_str().as_bytes();
    whole.ends_with(name.as_bytes()).then_some(name)
}

fn identity(facts: &Metadata) -> (u64, u64) {
    (facts.dev(), facts.ino())
}

impl Place {
    pub fn of(target: &Target, inputs: &[PathBuf]) -> Result<Place, Failure> {
        let path = &target.path;
        let name = last_name(path)
            .and_then(|name| CString::new(name.as_bytes()).ok())
            .ok_or_else(|| Failure::unfit(path, "is not the name of a file"))?;
        let folder = Folder::of(path).map_err(Failure::system(path, "cannot be created"))?;
        let inputs = inputs.iter().filter_map(|input| fs::metadata(input).ok());
        Ok(Place {
            path: path.clone(),
            force: target.force,
            folder,
            name,
            inputs: inputs.map(|facts| identity(&facts)).collect(),
        })
    }

    /// What the output is to replace, if anything. A failure where it may not.
    pub fn replaced(&self) -> Result<Option<Metadata>, Failure> {
        let path = &self.path;
        let found = self.folder.facts(&self.name);
        let facts = match found.map_err(Failure::system(path, "cannot be created"))? {
            Some(facts) => facts,
            None => return Ok(None),
        };
        let unfit = |why| Err(Failure::unfit(path, why));
        if !facts.is_file() {
            return unfit("exists and is not a plain file, so it is not replaced");
        }
        if self.inputs.contains(&identity(&facts)) {
            return unfit("is one of the files that are read, so it is not replaced");
        }
        if !self.force {
            return unfit("exists already; --force replaces it");
        }
        self.folder
            .may_write(&self.name)
            .and_then(|()| self.may_remove(&facts))
            .map_err(Failure::system(path, "exists and may not be replaced"))?;
        Ok(Some(facts))
    }

    /// In a folder with the sticky bit a file is its owner's and the folder's owner's to replace, whoever may write it.
    fn may_remove(&self, facts: &Metadata) -> io::Result<()> {
        let folder = self.folder.own_facts()?;
        // SAFETY: a plain call.
        let user = unsafe { libc::geteuid() };
        let sticky = folder.mode() & libc::S_ISVTX != 0;
        if sticky && ![0, facts.uid(), folder.uid()].contains(&user) {
            return Err(io::Error::from_raw_os_error(libc::EPERM));
        }
        Ok(())
    }

    /// A name that nothing has, for what is not whole yet.
    pub fn part_name(&self) -> io::Result<CString> {
        let name = self.name.as_bytes();
        let mut part = b".".to_vec();
        part.extend(&name[..name.len().min(SHORT)]);
        let number = COUNT.fetch_add(1, Relaxed);
        part.extend(format!(".{}-{number}.part", process::id()).as_bytes());
        Ok(CString::new(part)?)
    }
}
