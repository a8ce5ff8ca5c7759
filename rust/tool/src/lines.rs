//! The lines of a list of digests.

use crate::cli::stream;
use crate::failure::Failure;
use crate::formats::{self, Columns, Line};
use crate::streams;
use std::fs::{File, OpenOptions};
use std::io::{self, BufRead, BufReader, Read};
use std::os::unix::fs::OpenOptionsExt;
use std::os::unix::io::AsRawFd;
use std::path::{Path, PathBuf};
use std::str;

/// Bytes of a line, its end among them: far more than one needs.
const LONGEST: usize = 1 << 16;

/// Some programs begin a text with it.
const BYTE_ORDER_MARK: &[u8] = b"\xef\xbb\xbf";

/// What a line is, if it is not empty and no comment.
pub enum Content {
    Entry(Line),
    /// Of another form.
    Malformed,
    /// No line of text: what comes after it is of no use.
    Binary,
}

pub struct Lines {
    path: PathBuf,
    from: BufReader<File>,
    line: Vec<u8>,
    pub number: u64,
    /// Of a hashdeep list.
    columns: Option<Columns>,
}

impl Lines {
    /// From a file, or from standard input where the name is `-`.
    pub fn open(path: &Path) -> Result<Lines, Failure> {
        let file = if stream(path) {
            streams::input()
        } else {
            at_once(path)
        };
        Ok(Lines {
            path: path.to_path_buf(),
            from: BufReader::new(file.map_err(Failure::system(path, "cannot be opened"))?),
            line: Vec::new(),
            number: 0,
            columns: None,
        })
    }

    /// The next line that is not empty and no comment.
    pub fn next(&mut self) -> Result<Option<Content>, Failure> {
        loop {
            self.line.clear();
            (&mut self.from)
                .take(LONGEST as u64)
                .read_until(b'\n', &mut self.line)
                .map_err(Failure::system(&self.path, "cannot be read"))?;
            if self.line.is_empty() {
                return Ok(None);
            }
            self.number += 1;
            let mut line = &self.line[..];
            if self.number == 1 {
                line = line.strip_prefix(BYTE_ORDER_MARK).unwrap_or(line);
            }
            if let Some(content) = content(line, &mut self.columns) {
                return Ok(Some(content));
            }
        }
    }
}

/// A pipe that nobody writes to is not waited for: it reads as empty.
fn at_once(path: &Path) -> io::Result<File> {
    let file = OpenOptions::new()
        .read(true)
        .custom_flags(libc::O_NONBLOCK)
        .open(path)?;
    // SAFETY: plain calls on an open file.
    let status = unsafe {
        let flags = libc::fcntl(file.as_raw_fd(), libc::F_GETFL);
        libc::fcntl(file.as_raw_fd(), libc::F_SETFL, flags & !libc::O_NONBLOCK)
    };
    if status < 0 {
        return Err(io::Error::last_os_error());
    }
    Ok(file)
}

fn content(line: &[u8], columns: &mut Option<Columns>) -> Option<Content> {
    if line.len() == LONGEST && !line.ends_with(b"\n") {
        return Some(Content::Binary);
    }
    let line = trimmed(line);
    if line.is_empty() || line.starts_with(b"#") {
        return None;
    }
    if let Some(named) = Columns::of(line) {
        *columns = Some(named);
        return None;
    }
    Some(match formats::line(line, columns.as_ref()) {
        Some(entry) => Content::Entry(entry),
        None if is_text(line) => Content::Malformed,
        None => Content::Binary,
    })
}

fn is_text(line: &[u8]) -> bool {
    let odd = |character: char| character.is_control() && character != '\t';
    str::from_utf8(line).map_or(false, |line| !line.contains(odd))
}

/// Without blanks and line ends around it.
fn trimmed(line: &[u8]) -> &[u8] {
    let start = line.iter().position(|byte| !byte.is_ascii_whitespace());
    let end = line.iter().rposition(|byte| !byte.is_ascii_whitespace());
    start
        .zip(end)
        .map_or(&[], |(start, end)| &line[start..=end])
}
