//! What a replaced file leaves to the one that takes its place: its mode, its list of who may do what, its owner.

use std::ffi::CString;
use std::fs::{File, Metadata, Permissions};
use std::io;
use std::os::unix::ffi::OsStrExt;
use std::os::unix::fs::{MetadataExt, PermissionsExt};
use std::os::unix::io::AsRawFd;
use std::path::Path;

/// Under this name a file has its access list. Where there is one, the mode alone would give the group too much.
const ACCESS_LIST: &[u8] = b"system.posix_acl_access\0";

/// No file has a longer one.
const LONGEST: usize = 1 << 16;

/// Gives a file the mode and access list of the old one at a path, and its owner and group where the system allows that.
pub fn keep(file: &File, old: &Metadata, path: &Path) -> io::Result<()> {
    let new = file.metadata()?;
    let alike = (new.uid(), new.gid()) == (old.uid(), old.gid());
    // SAFETY: a plain call on an open file.
    let hand = |user, group| unsafe { libc::fchown(file.as_raw_fd(), user, group) } == 0;
    let whole = alike || hand(old.uid(), old.gid());
    if !whole {
        hand(libc::uid_t::MAX, old.gid());
    }
    match access_list(path)? {
        Some(list) => give(file, &list)?,
        // The folder may have one for all that is made there.
        None => take(file)?,
    }
    // Bits that lend the owner's rights are for that owner alone.
    let mode = old.mode() & if whole { 0o7777 } else { 0o777 };
    file.set_permissions(Permissions::from_mode(mode))
}

fn access_list(path: &Path) -> io::Result<Option<Vec<u8>>> {
    let path = CString::new(path.as_os_str().as_bytes())?;
    let mut list = vec![0; LONGEST];
    // SAFETY: two strings that end in a zero byte, and room of the length that is told.
    let length = unsafe {
        libc::lgetxattr(
            path.as_ptr(),
            ACCESS_LIST.as_ptr().cast(),
            list.as_mut_ptr().cast(),
            list.len(),
        )
    };
    if length >= 0 {
        list.truncate(length as usize);
        return Ok(Some(list));
    }
    unless_none().map(|()| None)
}

fn give(file: &File, list: &[u8]) -> io::Result<()> {
    // SAFETY: a string that ends in a zero byte, and bytes of the length that is told.
    let status = unsafe {
        libc::fsetxattr(
            file.as_raw_fd(),
            ACCESS_LIST.as_ptr().cast(),
            list.as_ptr().cast(),
            list.len(),
            0,
        )
    };
    if status == 0 {
        Ok(())
    } else {
        Err(io::Error::last_os_error())
    }
}

fn take(file: &File) -> io::Result<()> {
    // SAFETY: a string that ends in a zero byte.
    let status = unsafe { libc::fremovexattr(file.as_raw_fd(), ACCESS_LIST.as_ptr().cast()) };
    if status == 0 {
        Ok(())
    } else {
        unless_none()
    }
}

/// The system's last error, but for those of a file that has no list and of a file system that knows none.
fn unless_none() -> io::Result<()> {
    let error = io::Error::last_os_error();
    match error.raw_os_error() {
        Some(libc::ENODATA | libc::EOPNOTSUPP | libc::ENOSYS) => Ok(()),
        _ => Err(error),
    }
}
