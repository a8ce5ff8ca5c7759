//! The C face, as crate `exports` has it: a slice is a pointer and a count, a struct is all u64 and passed by value.

macro_rules! answer {
    ($(#[$about:meta])* $name:ident { $($field:ident),* }) => {
        $(#[$about])*
        // A field is told by its name or by the struct's own line.
        #[allow(missing_docs)]
        #[repr(C)]
        #[derive(Clone, Copy, Debug, Default, PartialEq, Eq)]
        pub struct $name {
            $(pub $field: u64,)*
        }
    };
}

answer! {
    /// The full check's answer, and that of the lab profile.
    Verdict { number, place, capacity, grain_size }
}
answer! {
    /// The answer of the check in a lent list: the full check's, and the number of sectors marked, which refusal 12 has too.
    Marked { number, place, capacity, grain_size, marked }
}
answer! {
    /// What a header says; the refusals are 1 to 7 and 43 only. A dirty number other than 0: the disk was still open.
    Head { number, place, capacity, grain_size, descriptor, descriptor_sectors, dirty }
}
answer! {
    /// Where a sector comes from. Kind: 0 absent, 1 zero, 2 stored, 3 packed. The layer is a chain's, or the extent of a disk of
    /// several files.
    Located { number, layer, place, kind, sector, size, offset }
}
answer! {
    /// How a lookup comes to its answer: what 1 means (1 for zeros), the grain, and two entries with the bytes of the file at which they
    /// stand. What was not reached is 0. The rest is the lookup's.
    Steps {
        number, place, one_is_zero, grain, directory_at, directory_entry, table_at, table_entry, kind, sector, size, offset
    }
}
answer! {
    /// A part of the image, in bytes.
    Part { at, length }
}
answer! {
    /// How many areas were listed, three words each: group 1 header, 2 descriptor, 3 directory, 4 redundant directory, 5 primary
    /// table, 6 redundant table, 7 footer, 8 last sector; first sector; sectors.
    Framed { number, place, count }
}
answer! {
    /// Grains of the accepted images, kind by kind.
    Surveyed { number, place, stored, zero, absent, packed }
}
answer! {
    /// How many entries differed, three words each in the list of changes: grain, old entry, new entry.
    Mended { number, place, count }
}
answer! {
    /// The length, in bytes, of what was written.
    Written { number, place, length }
}
answer! {
    /// What a start of a stream keeps: its sectors, its grains, and the length, in bytes, of the tail that closes it.
    Closed { number, place, sectors, grains, length }
}
answer! {
    /// What a descriptor says beside its extents.
    Described { number, place, extents, version, cid, parent_cid, type_at, type_length }
}
answer! {
    /// One extent. Access: 1 RW, 2 RDONLY, 3 NOACCESS. Kind: 1 FLAT, 2 VMFS, 3 SPARSE, 4 VMFSSPARSE, 5 ZERO.
    Extent { first, sectors, access, kind, name_at, name_length, offset }
}
answer! {
    /// The number, in the list, of the extent that holds a sector.
    Found { number, place, extent }
}

extern "C" {
    pub fn anhkhovet_check(image: *const u8, length: usize) -> Verdict;
    pub fn anhkhovet_check_in(
        image: *const u8,
        length: usize,
        list: *mut u64,
        list_length: usize,
    ) -> Marked;
    pub fn anhkhovet_profile(image: *const u8, length: usize) -> Verdict;
    pub fn anhkhovet_header(image: *const u8, length: usize) -> Head;
    pub fn anhkhovet_lookup(image: *const u8, length: usize, sector: u64) -> Located;
    pub fn anhkhovet_steps(image: *const u8, length: usize, sector: u64) -> Steps;
    pub fn anhkhovet_chain(
        layers: *const u8,
        layers_length: usize,
        lengths: *const u64,
        lengths_length: usize,
        sector: u64,
    ) -> Located;
    pub fn anhkhovet_read(image: *const u8, length: usize, sector: u64) -> Part;
    pub fn anhkhovet_frame(
        image: *const u8,
        length: usize,
        list: *mut u64,
        list_length: usize,
    ) -> Framed;
    pub fn anhkhovet_survey(
        images: *const u8,
        images_length: usize,
        lengths: *const u64,
        lengths_length: usize,
        rows: *mut u64,
        rows_length: usize,
        tally: *mut u64,
        tally_length: usize,
    ) -> Surveyed;
}

extern "C" {
    pub fn anhkhovet_mend(
        image: *mut u8,
        length: usize,
        good: u64,
        changes: *mut u64,
        changes_length: usize,
    ) -> Mended;
    pub fn anhkhovet_normal(
        image: *const u8,
        length: usize,
        out: *mut u8,
        out_length: usize,
    ) -> Written;
    pub fn anhkhovet_collapse(
        lower: *const u8,
        lower_length: usize,
        upper: *const u8,
        upper_length: usize,
        out: *mut u8,
        out_length: usize,
    ) -> Written;
    pub fn anhkhovet_to_kdmv(
        image: *const u8,
        length: usize,
        out: *mut u8,
        out_length: usize,
    ) -> Written;
    pub fn anhkhovet_to_cowd(
        image: *const u8,
        length: usize,
        out: *mut u8,
        out_length: usize,
    ) -> Written;
    pub fn anhkhovet_close(
        image: *const u8,
        length: usize,
        out: *mut u8,
        out_length: usize,
    ) -> Closed;
}

extern "C" {
    pub fn anhkhovet_descriptor(
        text: *const u8,
        length: usize,
        extents: *mut Extent,
        extents_length: usize,
    ) -> Described;
    pub fn anhkhovet_find(extents: *const Extent, length: usize, sector: u64) -> Found;
    pub fn anhkhovet_split(
        text: *const u8,
        text_length: usize,
        files: *const u8,
        files_length: usize,
        lengths: *const u64,
        lengths_length: usize,
        sector: u64,
    ) -> Located;
}
