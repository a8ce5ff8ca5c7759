//! The folder for the inputs, removed with all that is in it when the program is done with it.

use std::fs::{remove_dir_all, remove_file, DirBuilder, File, OpenOptions};
use std::io::{self, Write};
use std::os::unix::fs::DirBuilderExt;
use std::path::{Path, PathBuf};
use std::process::id;
use std::sync::atomic::{AtomicU64, Ordering};

pub struct Folder(PathBuf);

/// Two folders of one program have different names.
static NUMBER: AtomicU64 = AtomicU64::new(0);

impl Folder {
    /// A new folder in `parent` that only this user may enter.
    pub fn new(parent: &Path) -> io::Result<Folder> {
        let number = NUMBER.fetch_add(1, Ordering::Relaxed);
        let path = parent.join(format!("anhkhovet-bench-{}-{number}", id()));
        DirBuilder::new().mode(0o700).create(&path)?;
        Ok(Folder(path))
    }

    pub fn path(&self, name: &str) -> PathBuf {
        self.0.join(name)
    }

    pub fn create(&self, name: &str, length: u64) -> io::Result<File> {
        let file = OpenOptions::new()
            .read(true)
            .write(true)
            .create(true)
            .truncate(true)
            .open(self.path(name))?;
        file.set_len(length)?;
        Ok(file)
    }

    /// Whether `length` bytes more find room. Writing to a map of a sparse file on a full file system would end the program.
    pub fn has_room(&self, length: u64) -> io::Result<()> {
        let block = vec![1; 1 << 20];
        let mut file = self.create("room", 0)?;
        let filled = (0..=length >> 20).try_for_each(|_| file.write_all(&block));
        remove_file(self.path("room"))?;
        filled
    }
}

impl Drop for Folder {
    fn drop(&mut self) {
        if let Err(error) = remove_dir_all(&self.0) {
            eprintln!("bench: {} is left: {error}", self.0.display());
        }
    }
}

#[test]
fn a_folder_goes_with_its_files() -> io::Result<()> {
    let folder = Folder::new(&std::env::temp_dir())?;
    folder.create("sparse", 1 << 30)?;
    folder.has_room(1 << 21)?;
    let path = folder.path("sparse");
    assert!(path.exists() && !folder.path("room").exists());
    drop(folder);
    assert!(!path.exists());
    Ok(())
}
