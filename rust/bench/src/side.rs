//! The library that is measured: the proved one through its C face, or the plain one in its place.

#[cfg(feature = "proved")]
mod proved {
    use anhkhovet::raw;
    use plain::{Closed, Described, Extent, Located, Marked, Mended, Surveyed, Verdict, Written};

    /// A struct of the one side from the other's, field by field.
    macro_rules! same {
        ($from:expr => $to:ident { $($field:ident),* }) => {{
            let from = $from;
            $to { $($field: from.$field),* }
        }};
    }

    pub fn check(image: &[u8]) -> Verdict {
        same!(raw::check(image) => Verdict { number, place, capacity, grain_size })
    }

    pub fn profile(image: &[u8]) -> Verdict {
        same!(raw::profile(image) => Verdict { number, place, capacity, grain_size })
    }

    pub fn check_in(image: &[u8], list: &mut [u64]) -> Marked {
        same!(raw::check_in(image, list) => Marked { number, place, capacity, grain_size, marked })
    }

    pub fn mend(image: &mut [u8], good: u64, changes: &mut [u64]) -> Mended {
        same!(raw::mend(image, good, changes) => Mended { number, place, count })
    }

    pub fn survey(images: &[u8], lengths: &[u64], rows: &mut [u64], tally: &mut [u64]) -> Surveyed {
        same!(raw::survey(images, lengths, rows, tally) => Surveyed { number, place, stored, zero, absent, packed })
    }

    pub fn lookup(image: &[u8], sector: u64) -> Located {
        same!(raw::lookup(image, sector) => Located { number, layer, place, kind, sector, size, offset })
    }

    pub fn chain(layers: &[u8], lengths: &[u64], sector: u64) -> Located {
        same!(raw::chain(layers, lengths, sector) => Located { number, layer, place, kind, sector, size, offset })
    }

    pub fn collapse(lower: &[u8], upper: &[u8], out: &mut [u8]) -> Written {
        same!(raw::collapse(lower, upper, out) => Written { number, place, length })
    }

    pub fn to_kdmv(image: &[u8], out: &mut [u8]) -> Written {
        same!(raw::to_kdmv(image, out) => Written { number, place, length })
    }

    pub fn to_cowd(image: &[u8], out: &mut [u8]) -> Written {
        same!(raw::to_cowd(image, out) => Written { number, place, length })
    }

    pub fn close(image: &[u8], out: &mut [u8]) -> Closed {
        same!(raw::close(image, out) => Closed { number, place, sectors, grains, length })
    }

    pub fn describe(text: &[u8]) -> (Described, Vec<Extent>) {
        let mut records = [raw::Extent::default(); plain::MOST_EXTENTS];
        let described = raw::descriptor(text, &mut records);
        let described = same!(described => Described { number, place, extents, version, cid, parent_cid, type_at, type_length });
        // The plain side hands over a list too: both pay for it.
        let used = &records[..described.extents as usize];
        let extents = used.iter().map(|from| same!(from => Extent { first, sectors, access, kind, name_at, name_length, offset }));
        (described, extents.collect())
    }
}

#[cfg(feature = "proved")]
pub use proved::{
    chain, check, check_in, close, collapse, describe, lookup, mend, profile, survey, to_cowd,
    to_kdmv,
};

#[cfg(not(feature = "proved"))]
mod stand_in {
    use plain::{Described, Extent, Written};

    pub fn collapse(lower: &[u8], upper: &[u8], out: &mut [u8]) -> Written {
        plain::over(plain::collapse(lower, upper, out.len()), out)
    }

    pub fn describe(text: &[u8]) -> (Described, Vec<Extent>) {
        plain::descriptor(text, plain::MOST_EXTENTS)
    }
}

#[cfg(not(feature = "proved"))]
pub use {
    plain::{chain, check, check_in, close, lookup, mend, profile, survey, to_cowd, to_kdmv},
    stand_in::{collapse, describe},
};
