//! The two headers: refusals 1, 2, 43 and 3 to 7, and which kinds of image a call takes (request A13).

use crate::answers::{refusal, Head, Refusal};
use crate::numbers::{number, sector, up, whole_sectors, SECTOR};

#[derive(Clone, Copy, Debug, PartialEq, Eq)]
pub enum Kind {
    Kdmv,
    Cowd,
}

impl Kind {
    pub fn entries_per_table(self) -> u64 {
        match self {
            Kind::Kdmv => 512,
            Kind::Cowd => 4096,
        }
    }

    /// Sectors of one table: 4, or 32 for COWD.
    pub fn table_sectors(self) -> u64 {
        self.entries_per_table() * 4 / SECTOR
    }

    pub fn header_sectors(self) -> u64 {
        match self {
            Kind::Kdmv => 1,
            Kind::Cowd => 4,
        }
    }
}

/// What a header says that passed its rules.
#[derive(Clone, Copy, Debug)]
pub struct Header {
    pub kind: Kind,
    pub capacity: u64,
    pub grain_size: u64,
    /// KDMV's flags; 0 for COWD, whose flags are not judged.
    pub flags: u64,
    /// Whether an entry of 1 means zeros; otherwise it is a sector.
    pub one_is_zero: bool,
    pub descriptor: u64,
    pub descriptor_sectors: u64,
    /// 0 for none.
    pub redundant: u64,
    /// The directory's sector: the footer's where there is one.
    pub directory: u64,
    /// Entries that the directory's area has room for: n, or COWD's stored count.
    pub stored_entries: u64,
    /// Whether sector 0 says that the directory is at the end.
    pub footer: bool,
    /// Byte 72 of KDMV, the u32 at 1648 of COWD, which a move alone asks for. No header is refused for it.
    pub dirty: u64,
}

const NEWLINE_TEST: u64 = 0x1;
const USE_REDUNDANT: u64 = 0x2;
const ZEROED: u64 = 0x4;
const COMPRESSED: u64 = 0x10000;
const MARKERS: u64 = 0x20000;
const ALL_FLAGS: u64 = NEWLINE_TEST | USE_REDUNDANT | ZEROED | COMPRESSED | MARKERS;

const AT_END: u64 = u64::MAX;
const MOST_CAPACITY: u64 = 1 << 31;
const MOST_GRAIN: u64 = 2048;

impl Header {
    pub fn entries_per_table(&self) -> u64 {
        self.kind.entries_per_table()
    }

    pub fn table_sectors(&self) -> u64 {
        self.kind.table_sectors()
    }

    pub fn header_sectors(&self) -> u64 {
        self.kind.header_sectors()
    }

    pub fn grains(&self) -> u64 {
        up(self.capacity, self.grain_size)
    }

    /// n: the directory entries in use.
    pub fn directory_entries(&self) -> u64 {
        up(self.capacity, self.entries_per_table() * self.grain_size)
    }

    pub fn directory_sectors(&self) -> u64 {
        up(self.stored_entries * 4, SECTOR)
    }

    pub fn packed(&self) -> bool {
        self.flags & COMPRESSED != 0
    }
}

/// The header of a KDMV image, or the first of refusals 1, 2, 43 and 3 to 7: what every call takes but the moves.
pub fn judge(image: &[u8]) -> Result<Header, Refusal> {
    let mut header = judge_start(image)?;
    if header.footer {
        header.directory = footer_directory(image).ok_or_else(|| refusal(7))?;
    }
    Ok(header)
}

/// What sector 0 of a KDMV image says, or the first of refusals 1, 2, 43 and 3 to 6: a footer's directory is not yet known.
pub fn judge_start(image: &[u8]) -> Result<Header, Refusal> {
    match kind(image)? {
        Kind::Kdmv => kdmv(image),
        Kind::Cowd => Err(refusal(43)),
    }
}

/// The header of an image of either kind, or the first of refusals 1 to 7: what the two moves alone take.
pub fn judge_either(image: &[u8]) -> Result<Header, Refusal> {
    match kind(image)? {
        Kind::Kdmv => judge(image),
        Kind::Cowd => cowd(image),
    }
}

/// The kind that the magic says, of an image that has all of its header: refusals 1 and 2.
fn kind(image: &[u8]) -> Result<Kind, Refusal> {
    let kind = match image.get(..4) {
        None => return Err(refusal(1)),
        Some([0x4b, 0x44, 0x4d, 0x56]) => Kind::Kdmv,
        Some([0x43, 0x4f, 0x57, 0x44]) => Kind::Cowd,
        Some(_) => return Err(refusal(2)),
    };
    if whole_sectors(image) < kind.header_sectors() {
        return Err(refusal(1));
    }
    Ok(kind)
}

/// Sector 0 of a KDMV image that has one: refusals 3 to 6.
fn kdmv(image: &[u8]) -> Result<Header, Refusal> {
    let version = number(image, 4, 4);
    let flags = number(image, 8, 4);
    let capacity = number(image, 12, 8);
    let grain_size = number(image, 20, 8);
    let entries_per_table = number(image, 44, 4);
    let redundant = number(image, 48, 8);
    let directory = number(image, 56, 8);
    let compression = number(image, 77, 2);

    if !(1..=3).contains(&version) {
        return Err(refusal(3));
    }
    if flags & NEWLINE_TEST != 0 && image[73..77] != [0x0a, 0x20, 0x0d, 0x0a] {
        return Err(refusal(4));
    }
    let compressed = flags & COMPRESSED != 0;
    let markers = flags & MARKERS != 0;
    if flags & !ALL_FLAGS != 0
        || (flags & ZEROED != 0 && version == 1)
        || compression > 1
        || (compression == 1) != compressed
        || (markers && !compressed)
        || (flags & USE_REDUNDANT != 0 && redundant == 0)
        || (directory == AT_END && !markers)
    {
        return Err(refusal(5));
    }
    if !(1..=MOST_CAPACITY).contains(&capacity)
        || !grain_size.is_power_of_two()
        || !(8..=MOST_GRAIN).contains(&grain_size)
        || entries_per_table != 512
    {
        return Err(refusal(6));
    }
    Ok(Header {
        kind: Kind::Kdmv,
        capacity,
        grain_size,
        flags,
        one_is_zero: version >= 2 && flags & ZEROED != 0,
        descriptor: number(image, 28, 8),
        descriptor_sectors: number(image, 36, 8),
        redundant,
        directory,
        stored_entries: up(capacity, 512 * grain_size),
        footer: directory == AT_END,
        dirty: number(image, 72, 1),
    })
}

/// The directory sector that the footer gives; nothing where the footer's rules are broken.
fn footer_directory(image: &[u8]) -> Option<u64> {
    let f = whole_sectors(image);
    if image.len() as u64 % SECTOR != 0 || f < 4 {
        return None;
    }
    let first = sector(image, 0);
    let footer = sector(image, f - 2);
    let last = sector(image, f - 1);
    let same = first[..56] == footer[..56] && first[64..] == footer[64..];
    let directory = number(footer, 56, 8);
    if same && last.iter().all(|byte| *byte == 0) && directory != AT_END {
        Some(directory)
    } else {
        None
    }
}

/// The header of a COWD image that has all of it: refusals 3 and 6.
fn cowd(image: &[u8]) -> Result<Header, Refusal> {
    let capacity = number(image, 12, 4);
    let grain_size = number(image, 16, 4);
    let stored_entries = number(image, 24, 4);
    if number(image, 4, 4) != 1 {
        return Err(refusal(3));
    }
    if !(1..=MOST_CAPACITY).contains(&capacity)
        || !grain_size.is_power_of_two()
        || grain_size > MOST_GRAIN
        || stored_entries < up(capacity, 4096 * grain_size)
    {
        return Err(refusal(6));
    }
    Ok(Header {
        kind: Kind::Cowd,
        capacity,
        grain_size,
        flags: 0,
        one_is_zero: false,
        descriptor: 0,
        descriptor_sectors: 0,
        redundant: 0,
        directory: number(image, 20, 4),
        stored_entries,
        footer: false,
        dirty: number(image, 1648, 4),
    })
}

/// The public call: what the header says, or its refusal.
pub fn header(image: &[u8]) -> Head {
    match judge(image) {
        Ok(header) => Head {
            capacity: header.capacity,
            grain_size: header.grain_size,
            descriptor: header.descriptor,
            descriptor_sectors: header.descriptor_sectors,
            dirty: header.dirty,
            ..Head::default()
        },
        Err(refusal) => Head {
            number: refusal.number,
            place: refusal.place,
            ..Head::default()
        },
    }
}
