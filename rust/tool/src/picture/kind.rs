//! What a sector is, of a file or of the disk, and the words for it.

use anhkhovet::{Group, Source};

#[derive(Clone, Copy, Debug, PartialEq, Eq)]
pub enum Kind {
    Header,
    Descriptor,
    Directory,
    RedundantDirectory,
    PrimaryTable,
    RedundantTable,
    Footer,
    LastSector,
    Stored,
    Packed,
    Zero,
    Absent,
    /// The lookup of its grain is refused, 9 or 10.
    Refused,
    /// In two areas of the file.
    Shared,
    /// In no area of the file.
    Nothing,
}

use Kind::*;

/// All kinds, each with its key in JSON, its word and the word for several.
pub const KINDS: [(Kind, &str, &str, &str); 15] = [
    (Header, "header", "header", "headers"),
    (Descriptor, "descriptor", "descriptor", "descriptors"),
    (Directory, "directory", "directory", "directories"),
    (
        RedundantDirectory,
        "redundant_directory",
        "redundant directory",
        "redundant directories",
    ),
    (PrimaryTable, "primary_table", "table", "tables"),
    (
        RedundantTable,
        "redundant_table",
        "redundant table",
        "redundant tables",
    ),
    (Footer, "footer", "footer", "footers"),
    (
        LastSector,
        "last_sector",
        "sector after the footer",
        "sectors after the footer",
    ),
    (Stored, "stored", "stored", "stored"),
    (Packed, "packed", "packed", "packed"),
    (Zero, "zero", "zero", "zero"),
    (Absent, "absent", "absent", "absent"),
    (Refused, "refused", "refused", "refused"),
    (Shared, "shared", "in two areas", "in two areas"),
    (Nothing, "no_area", "nothing", "nothing"),
];

impl Kind {
    pub fn of_group(group: Group) -> Kind {
        match group {
            Group::Header => Header,
            Group::Descriptor => Descriptor,
            Group::Directory => Directory,
            Group::RedundantDirectory => RedundantDirectory,
            Group::PrimaryTable => PrimaryTable,
            Group::RedundantTable => RedundantTable,
            Group::Footer => Footer,
            Group::LastSector => LastSector,
        }
    }

    pub fn of(source: Source) -> Kind {
        match source {
            Source::Absent => Absent,
            Source::Zero => Zero,
            Source::Stored { .. } => Stored,
            Source::Packed { .. } => Packed,
        }
    }

    /// Its place in `KINDS`.
    pub fn number(self) -> usize {
        self as usize
    }

    pub fn key(self) -> &'static str {
        KINDS[self.number()].1
    }

    pub fn word(self) -> &'static str {
        KINDS[self.number()].2
    }

    /// Its word for so many.
    pub fn words(self, count: u64) -> &'static str {
        match count {
            1 => self.word(),
            _ => KINDS[self.number()].3,
        }
    }

    /// An area of the file that is no grain.
    pub fn is_frame(self) -> bool {
        self.number() <= LastSector.number()
    }

    pub fn is_table(self) -> bool {
        matches!(self, PrimaryTable | RedundantTable)
    }

    /// Where nothing stands, so that anything else beside it is what is looked for.
    pub fn is_empty(self) -> bool {
        matches!(self, Nothing | Absent)
    }
}

#[cfg(test)]
mod tests {
    use super::*;

    #[test]
    fn kinds_stand_at_their_numbers() {
        for (number, (kind, ..)) in KINDS.iter().enumerate() {
            assert_eq!(kind.number(), number);
        }
    }
}
