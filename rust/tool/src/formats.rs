//! The forms of a list of digests: our own, that of sha256sum and that of hashdeep. The latter two name files, as `split` names
//! the parts that it cuts a raw disk into.

use crate::hash::{digits, Hash};
use crate::numbers::number;
use std::fmt;
use std::io::Write;
use std::str;

#[derive(Clone, Copy, Debug, PartialEq, Eq)]
pub enum Format {
    Ours,
    Sha256sum,
    Hashdeep,
}

/// What a digest is of.
#[derive(Clone, Copy, Debug, PartialEq, Eq)]
pub enum Name {
    /// In our own form: a sector, which is the first of its grain where grains are listed.
    Plain(u64),
    Sector(u64),
    /// A grain by its number, from 0.
    Grain(u64),
    /// The closed payload of a packed grain, by the grain's first sector.
    Packed(u64),
    /// All sectors of the disk in order.
    Disk,
    /// A file of any other name.
    Other,
}

/// What a line says.
#[derive(Debug, PartialEq, Eq)]
pub struct Line {
    pub name: Name,
    pub hash: Hash,
    /// How many bytes the digest is of, where the form tells that.
    pub bytes: Option<u64>,
}

/// The columns of a hashdeep list: which one is the size, which one the digest, and how many there are. The last has the name.
pub struct Columns {
    size: Option<usize>,
    digest: Option<usize>,
    count: usize,
}

const HASHDEEP: &str = "%%%% HASHDEEP-1.0\n%%%% size,sha256,filename\n";

impl Format {
    pub const WORDS: [&'static str; 3] = ["ours", "sha256sum", "hashdeep"];

    /// By its word.
    pub fn of(word: &str) -> Format {
        match word {
            "sha256sum" => Format::Sha256sum,
            "hashdeep" => Format::Hashdeep,
            _ => Format::Ours,
        }
    }

    /// What stands before all lines.
    pub fn heading(self) -> &'static str {
        match self {
            Format::Ours | Format::Sha256sum => "",
            Format::Hashdeep => HASHDEEP,
        }
    }

    /// Adds the line for a digest of so many bytes to a text.
    pub fn put(self, text: &mut Vec<u8>, name: Name, bytes: u64, hash: &Hash) {
        let digits = digits(hash);
        let digits = str::from_utf8(&digits).unwrap_or_default();
        // Memory takes everything.
        let _ = match (self, name) {
            (Format::Ours, Name::Packed(first)) => writeln!(text, "{first} {digits} packed"),
            (Format::Ours, _) => writeln!(text, "{name} {digits}"),
            (Format::Sha256sum, _) => writeln!(text, "{digits}  {name}"),
            (Format::Hashdeep, _) => writeln!(text, "{bytes},{digits},{name}"),
        };
    }
}

impl Name {
    /// By the name of a file, in whatever folder.
    fn of(path: &[u8]) -> Name {
        let mut parts = path.rsplit(|byte| matches!(byte, b'/' | b'\\'));
        let name = str::from_utf8(parts.next().unwrap_or_default()).unwrap_or_default();
        match name.split_once('-') {
            None if name == "disk" => Name::Disk,
            None => Name::Other,
            Some((word, digits)) => Name::numbered(word, digits).unwrap_or(Name::Other),
        }
    }

    fn numbered(word: &str, digits: &str) -> Option<Name> {
        let number = digits.parse().ok()?;
        Some(match word {
            "sector" => Name::Sector(number),
            "grain" => Name::Grain(number),
            "packed" => Name::Packed(number),
            _ => return None,
        })
    }
}

/// Ten digits are enough: a disk has at most 2^31 sectors.
impl fmt::Display for Name {
    fn fmt(&self, to: &mut fmt::Formatter) -> fmt::Result {
        match self {
            Name::Plain(number) => write!(to, "{number}"),
            Name::Sector(number) => write!(to, "sector-{number:010}"),
            Name::Grain(number) => write!(to, "grain-{number:010}"),
            Name::Packed(first) => write!(to, "packed-{first:010}"),
            Name::Disk => write!(to, "disk"),
            Name::Other => Ok(()),
        }
    }
}

impl Columns {
    /// By the line that names them; nothing of another line.
    pub fn of(line: &[u8]) -> Option<Columns> {
        let named = str::from_utf8(line.strip_prefix(b"%%%% ")?).ok()?;
        let words: Vec<&str> = named.split(',').collect();
        let column = |wanted: &str| words.iter().position(|word| *word == wanted);
        Some(Columns {
            size: column("size"),
            digest: column("sha256"),
            count: words.len(),
        })
    }

    fn line(&self, line: &[u8]) -> Option<Line> {
        let words: Vec<&[u8]> = line.splitn(self.count, |byte| *byte == b',').collect();
        let size = match self.size {
            Some(size) => Some(str::from_utf8(words.get(size)?).ok()?.parse().ok()?),
            None => None,
        };
        Some(Line {
            name: Name::of(words.get(self.count - 1)?),
            hash: hash(words.get(self.digest?)?)?,
            bytes: size,
        })
    }
}

/// A line of a list, which is hashdeep's where its columns are known.
pub fn line(line: &[u8], columns: Option<&Columns>) -> Option<Line> {
    match columns {
        Some(columns) => columns.line(line),
        None => ours(line).or_else(|| summed(line)),
    }
}

/// Number and digest, parted by blanks or a comma, and maybe the word `packed`.
fn ours(line: &[u8]) -> Option<Line> {
    let mut words = line
        .split(|byte| matches!(byte, b',' | b' ' | b'\t'))
        .filter(|word| !word.is_empty());
    let first = str::from_utf8(words.next()?).ok()?;
    let hash = hash(words.next()?)?;
    let name = match (first, words.next()) {
        ("disk", None) => Name::Disk,
        (sector, None) => Name::Plain(number(sector).ok()?),
        (sector, Some(b"packed")) => Name::Packed(number(sector).ok()?),
        _ => return None,
    };
    let bytes = None;
    Some(Line { name, hash, bytes }).filter(|_| words.next().is_none())
}

/// Digest and name, parted by two blanks, or by one and a star; a backslash before them says that the name has such in it.
fn summed(line: &[u8]) -> Option<Line> {
    let line = line.strip_prefix(b"\\").unwrap_or(line);
    let rest = line.get(DIGITS..)?;
    let name = rest
        .strip_prefix(b"  ")
        .or_else(|| rest.strip_prefix(b" *"))?;
    Some(Line {
        name: Name::of(name),
        hash: hash(&line[..DIGITS])?,
        bytes: None,
    })
}

const DIGITS: usize = 64;

/// A digest of 64 hex digits, great or small.
fn hash(digits: &[u8]) -> Option<Hash> {
    let mut hash = Hash::default();
    if digits.len() != DIGITS {
        return None;
    }
    let value = |digit: u8| char::from(digit).to_digit(16);
    for (byte, pair) in hash.iter_mut().zip(digits.chunks_exact(2)) {
        *byte = (value(pair[0])? << 4 | value(pair[1])?) as u8;
    }
    Some(hash)
}
