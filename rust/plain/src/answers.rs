//! What the calls answer, in document 01's and 02's numbers. A field that does not apply is 0, and number 0 is an answer.

/// A refusal: its number and its place.
#[derive(Clone, Copy, Debug, PartialEq, Eq)]
pub struct Refusal {
    pub number: u64,
    pub place: u64,
}

/// A refusal whose place is 0.
pub fn refusal(number: u64) -> Refusal {
    Refusal { number, place: 0 }
}

/// The areas that refusal 8 is given for; its place is their number, the lowest that applies.
#[derive(Clone, Copy)]
pub enum Outside {
    Descriptor = 1,
    Directory = 2,
    RedundantDirectory = 3,
    PrimaryTable = 4,
    RedundantTable = 5,
}

/// Refusal 8 of an area that sticks out.
pub fn outside(area: Outside) -> Refusal {
    Refusal {
        number: 8,
        place: area as u64,
    }
}

/// The answer of the full check and of the profile.
#[derive(Clone, Copy, Debug, Default, PartialEq, Eq)]
pub struct Verdict {
    pub number: u64,
    pub place: u64,
    pub capacity: u64,
    pub grain_size: u64,
}

/// The answer of the check in a lent list: the check's, and the number of sectors marked, which refusal 12 has too.
#[derive(Clone, Copy, Debug, Default, PartialEq, Eq)]
pub struct Marked {
    pub number: u64,
    pub place: u64,
    pub capacity: u64,
    pub grain_size: u64,
    pub marked: u64,
}

/// What a KDMV header says that was not refused.
#[derive(Clone, Copy, Debug, Default, PartialEq, Eq)]
pub struct Head {
    pub number: u64,
    pub place: u64,
    pub capacity: u64,
    pub grain_size: u64,
    pub descriptor: u64,
    pub descriptor_sectors: u64,
    /// The dirty number itself: any but 0 says that the disk was still open.
    pub dirty: u64,
}

/// The frame's answer: how many areas the list starts with.
#[derive(Clone, Copy, Debug, Default, PartialEq, Eq)]
pub struct Framed {
    pub number: u64,
    pub place: u64,
    pub count: u64,
}

/// `Located::kind` of a grain that the parent is asked for.
pub const ABSENT: u64 = 0;
/// `Located::kind` of a grain of zeros.
pub const ZERO: u64 = 1;
/// `Located::kind` of a stored grain.
pub const STORED: u64 = 2;
/// `Located::kind` of a compressed grain.
pub const PACKED: u64 = 3;

/// Where a virtual sector comes from.
#[derive(Clone, Copy, Debug, Default, PartialEq, Eq)]
pub struct Located {
    pub number: u64,
    /// A chain's layer, or a split disk's extent.
    pub layer: u64,
    pub place: u64,
    pub kind: u64,
    pub sector: u64,
    pub size: u64,
    pub offset: u64,
}

/// How the lookup comes to its answer. `directory_at` and `table_at` count bytes of the file, the entries are the numbers that
/// stand there; what was not reached is 0.
#[derive(Clone, Copy, Debug, Default, PartialEq, Eq)]
pub struct Steps {
    pub number: u64,
    pub place: u64,
    /// 1 where an entry of 1 means zeros, 0 where it is a sector.
    pub one_is_zero: u64,
    pub grain: u64,
    pub directory_at: u64,
    pub directory_entry: u64,
    pub table_at: u64,
    pub table_entry: u64,
    pub kind: u64,
    pub sector: u64,
    pub size: u64,
    pub offset: u64,
}

/// The part of the image that the grain reader hands back, in bytes.
#[derive(Clone, Copy, Debug, Default, PartialEq, Eq)]
pub struct Part {
    pub at: u64,
    pub length: u64,
}

/// The answer of collapse, normal form and both moves: the result's length in bytes.
#[derive(Clone, Copy, Debug, Default, PartialEq, Eq)]
pub struct Written {
    pub number: u64,
    pub place: u64,
    pub length: u64,
}

/// The survey's answer: the grains of the accepted images, by kind.
#[derive(Clone, Copy, Debug, Default, PartialEq, Eq)]
pub struct Surveyed {
    pub number: u64,
    pub place: u64,
    pub stored: u64,
    pub zero: u64,
    pub absent: u64,
    pub packed: u64,
}

/// The mending's answer: how many entries differed, which the list of changes starts with.
#[derive(Clone, Copy, Debug, Default, PartialEq, Eq)]
pub struct Mended {
    pub number: u64,
    pub place: u64,
    pub count: u64,
}

/// The closing's answer: kept sectors, kept grains, and the tail's length in bytes.
#[derive(Clone, Copy, Debug, Default, PartialEq, Eq)]
pub struct Closed {
    pub number: u64,
    pub place: u64,
    pub sectors: u64,
    pub grains: u64,
    pub length: u64,
}

/// What a descriptor says beside its extents.
#[derive(Clone, Copy, Debug, Default, PartialEq, Eq)]
pub struct Described {
    pub number: u64,
    pub place: u64,
    pub extents: u64,
    pub version: u64,
    pub cid: u64,
    pub parent_cid: u64,
    pub type_at: u64,
    pub type_length: u64,
}

/// One extent of a descriptor. Access: 1 RW, 2 RDONLY, 3 NOACCESS. Kind: 1 FLAT, 2 VMFS, 3 SPARSE, 4 VMFSSPARSE, 5 ZERO.
#[derive(Clone, Copy, Debug, Default, PartialEq, Eq)]
pub struct Extent {
    pub first: u64,
    pub sectors: u64,
    pub access: u64,
    pub kind: u64,
    pub name_at: u64,
    pub name_length: u64,
    pub offset: u64,
}

/// The number, in the list, of the extent that holds a sector.
#[derive(Clone, Copy, Debug, Default, PartialEq, Eq)]
pub struct Found {
    pub number: u64,
    pub place: u64,
    pub extent: u64,
}
