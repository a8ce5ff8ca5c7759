//! Descriptor texts, and the extents that they name.

use crate::{raw, Refusal};
use std::ops::Range;

/// As many as document 01 allows.
const MOST_EXTENTS: usize = 32;

/// What a descriptor says.
#[derive(Clone, Debug, PartialEq, Eq, Hash)]
pub struct Descriptor {
    /// 1 to 3.
    pub version: u64,
    /// The content's identifier, 32 bits.
    pub cid: u64,
    /// That of the parent; 0xffff_ffff where there is no parent.
    pub parent_cid: u64,
    /// Where createType's value stands in the text, without its quotes.
    pub create_type: Range<usize>,
    /// 1 to 32, in the order of their lines.
    pub extents: Vec<Extent>,
}

/// One extent of a descriptor.
#[derive(Clone, Debug, PartialEq, Eq, Hash)]
pub struct Extent {
    /// The first virtual sector that it holds.
    pub first: u64,
    /// How many.
    pub sectors: u64,
    /// How it may be used.
    pub access: Access,
    /// What holds it.
    pub kind: ExtentKind,
    /// Where the name stands in the text, without its quotes; empty where there is none.
    pub name: Range<usize>,
    /// The offset that its line has, else 0.
    pub offset: u64,
}

/// How an extent may be used.
#[derive(Clone, Copy, Debug, PartialEq, Eq, Hash)]
pub enum Access {
    /// RW.
    ReadWrite = 1,
    /// RDONLY.
    ReadOnly = 2,
    /// NOACCESS.
    None = 3,
}

/// What holds an extent's sectors.
#[derive(Clone, Copy, Debug, PartialEq, Eq, Hash)]
pub enum ExtentKind {
    /// FLAT: a file, sector by sector.
    Flat = 1,
    /// VMFS: the same, on another file system.
    Vmfs = 2,
    /// SPARSE: a KDMV image.
    Sparse = 3,
    /// VMFSSPARSE: a COWD image, which [`split`](crate::split) refuses.
    VmfsSparse = 4,
    /// ZERO: nothing, it reads as zeros.
    Zero = 5,
}

impl Access {
    fn of(number: u64) -> Access {
        match number {
            1 => Access::ReadWrite,
            2 => Access::ReadOnly,
            3 => Access::None,
            _ => unreachable!("the library's contract has no access {number}"),
        }
    }

    /// The word of the text.
    pub fn word(self) -> &'static str {
        match self {
            Access::ReadWrite => "RW",
            Access::ReadOnly => "RDONLY",
            Access::None => "NOACCESS",
        }
    }
}

impl ExtentKind {
    fn of(number: u64) -> ExtentKind {
        match number {
            1 => ExtentKind::Flat,
            2 => ExtentKind::Vmfs,
            3 => ExtentKind::Sparse,
            4 => ExtentKind::VmfsSparse,
            5 => ExtentKind::Zero,
            _ => unreachable!("the library's contract has no type {number}"),
        }
    }

    /// The word of the text.
    pub fn word(self) -> &'static str {
        match self {
            ExtentKind::Flat => "FLAT",
            ExtentKind::Vmfs => "VMFS",
            ExtentKind::Sparse => "SPARSE",
            ExtentKind::VmfsSparse => "VMFSSPARSE",
            ExtentKind::Zero => "ZERO",
        }
    }
}

impl Extent {
    fn of(record: &raw::Extent) -> Extent {
        Extent {
            first: record.first,
            sectors: record.sectors,
            access: Access::of(record.access),
            kind: ExtentKind::of(record.kind),
            name: part(record.name_at, record.name_length),
            offset: record.offset,
        }
    }

    fn record(&self) -> raw::Extent {
        raw::Extent {
            first: self.first,
            sectors: self.sectors,
            access: self.access as u64,
            kind: self.kind as u64,
            name_at: self.name.start as u64,
            name_length: self.name.len() as u64,
            offset: self.offset,
        }
    }
}

fn part(at: u64, length: u64) -> Range<usize> {
    let at = at as usize;
    at..at + length as usize
}

/// Reads a descriptor: a file of its own, or the sectors that an image's header names, with the zeros after the text.
///
/// Refusals: 36, 31, 30, then the first faulty line (32 to 34), 33 for a missing key, 35.
///
#[doc = concat!("```\n", include_str!("../examples/descriptor.rs"), "```")]
pub fn descriptor(text: &[u8]) -> Result<Descriptor, Refusal> {
    let mut records = [raw::Extent::default(); MOST_EXTENTS];
    let described = raw::descriptor(text, &mut records);
    Refusal::unless_zero(described.number, described.place)?;
    let used = &records[..described.extents as usize];
    Ok(Descriptor {
        version: described.version,
        cid: described.cid,
        parent_cid: described.parent_cid,
        create_type: part(described.type_at, described.type_length),
        extents: used.iter().map(Extent::of).collect(),
    })
}

/// The number, in the list and from 0, of the first extent that holds a sector. The list need not come from a descriptor.
///
/// It copies the list into the library's form; [`raw::find`] takes that form as it is.
///
/// Refusal: 20 where none holds it.
pub fn find(extents: &[Extent], sector: u64) -> Result<usize, Refusal> {
    let records: Vec<raw::Extent> = extents.iter().map(Extent::record).collect();
    let found = raw::find(&records, sector);
    Refusal::unless_zero(found.number, found.place)?;
    Ok(found.extent as usize)
}
