//! The folder that an output goes to, held open: whatever becomes of its name meanwhile, what is made there is also removed there.

use std::ffi::{CStr, CString};
use std::fs::{File, Metadata};
use std::io;
use std::os::unix::ffi::OsStrExt;
use std::os::unix::io::{AsRawFd, FromRawFd, RawFd};
use std::path::Path;

pub struct Folder(File);

/// What a call of the system says that gives 0 or an error.
fn done(status: libc::c_int) -> io::Result<()> {
    if status == 0 {
        Ok(())
    } else {
        Err(io::Error::last_os_error())
    }
}

/// Opens a name in a folder.
fn open(folder: RawFd, name: &CStr, flags: libc::c_int, mode: libc::c_uint) -> io::Result<File> {
    // SAFETY: a string that ends in a zero byte; a number that is not negative is a file of ours alone.
    unsafe {
        let number = libc::openat(folder, name.as_ptr(), flags | libc::O_CLOEXEC, mode);
        if number < 0 {
            return Err(io::Error::last_os_error());
        }
        Ok(File::from_raw_fd(number))
    }
}

impl Folder {
    /// The folder that a path's last name stands in.
    pub fn of(path: &Path) -> io::Result<Folder> {
        let folder = match path.parent() {
            Some(folder) if !folder.as_os_str().is_empty() => folder,
            _ => Path::new("."),
        };
        let folder = CString::new(folder.as_os_str().as_bytes())?;
        // Names can be made in a folder that can't be listed.
        open(libc::AT_FDCWD, &folder, libc::O_PATH | libc::O_DIRECTORY, 0).map(Folder)
    }

    pub fn number(&self) -> RawFd {
        self.0.as_raw_fd()
    }

    pub fn own_facts(&self) -> io::Result<Metadata> {
        self.0.metadata()
    }

    /// What stands under a name, if anything does; a link is not followed.
    pub fn facts(&self, name: &CStr) -> io::Result<Option<Metadata>> {
        match open(self.number(), name, libc::O_PATH | libc::O_NOFOLLOW, 0) {
            Ok(file) => file.metadata().map(Some),
            Err(error) if error.kind() == io::ErrorKind::NotFound => Ok(None),
            Err(error) => Err(error),
        }
    }

    /// Whether the user may write what stands under a name.
    pub fn may_write(&self, name: &CStr) -> io::Result<()> {
        // SAFETY: a string that ends in a zero byte.
        done(unsafe { libc::faccessat(self.number(), name.as_ptr(), libc::W_OK, libc::AT_EACCESS) })
    }

    /// A new file, to be read and written.
    pub fn create(&self, name: &CStr, mode: u32) -> io::Result<File> {
        let flags = libc::O_RDWR | libc::O_CREAT | libc::O_EXCL | libc::O_NOFOLLOW;
        open(self.number(), name, flags, mode)
    }

    pub fn remove(&self, name: &CStr) -> io::Result<()> {
        // SAFETY: a string that ends in a zero byte.
        done(unsafe { libc::unlinkat(self.number(), name.as_ptr(), 0) })
    }

    /// Gives a file its name, in place of what has it now.
    pub fn replace(&self, from: &CStr, to: &CStr) -> io::Result<()> {
        let folder = self.number();
        // SAFETY: two strings that end in a zero byte.
        done(unsafe { libc::renameat(folder, from.as_ptr(), folder, to.as_ptr()) })
    }

    /// Gives a file its name, which nothing may have.
    pub fn rename(&self, from: &CStr, to: &CStr) -> io::Result<()> {
        let folder = self.number();
        // SAFETY: two strings that end in a zero byte.
        let renamed = done(unsafe {
            libc::renameat2(
                folder,
                from.as_ptr(),
                folder,
                to.as_ptr(),
                libc::RENAME_NOREPLACE,
            )
        });
        match renamed {
            Err(error) if matches!(error.raw_os_error(), Some(libc::EINVAL | libc::ENOSYS)) => {
                // A file system that can't: look, then rename.
                match self.facts(to)? {
                    Some(_) => Err(io::ErrorKind::AlreadyExists.into()),
                    None => self.replace(from, to),
                }
            }
            renamed => renamed,
        }
    }

    /// Has the names in the folder written to the disk, where user and file system can.
    pub fn sync(&self) -> io::Result<()> {
        let here = CString::new(".")?;
        let synced = open(self.number(), &here, libc::O_RDONLY | libc::O_DIRECTORY, 0)
            .and_then(|folder| folder.sync_all());
        match synced {
            Err(error)
                if matches!(
                    error.raw_os_error(),
                    Some(libc::EACCES | libc::EINVAL | libc::EOPNOTSUPP)
                ) =>
            {
                Ok(())
            }
            synced => synced,
        }
    }
}
