//! The two sides behind one trait. Answers are the plain side's structs.

use plain::{
    Closed, Described, Extent, Found, Framed, Head, Located, Marked, Mended, Part, Steps, Surveyed,
    Verdict, Written,
};

pub trait Side {
    fn check(&self, image: &[u8]) -> Verdict;
    fn check_in(&self, image: &[u8], list: &mut [u64]) -> Marked;
    fn profile(&self, image: &[u8]) -> Verdict;
    fn header(&self, image: &[u8]) -> Head;
    fn lookup(&self, image: &[u8], sector: u64) -> Located;
    fn steps(&self, image: &[u8], sector: u64) -> Steps;
    fn chain(&self, layers: &[u8], lengths: &[u64], sector: u64) -> Located;
    fn read(&self, image: &[u8], sector: u64) -> Part;
    fn frame(&self, image: &[u8], list: &mut [u64]) -> Framed;
    fn survey(
        &self,
        images: &[u8],
        lengths: &[u64],
        rows: &mut [u64],
        tally: &mut [u64],
    ) -> Surveyed;
    fn mend(&self, image: &mut [u8], good: u64, changes: &mut [u64]) -> Mended;
    fn normal(&self, image: &[u8], out: &mut [u8]) -> Written;
    fn collapse(&self, lower: &[u8], upper: &[u8], out: &mut [u8]) -> Written;
    fn to_kdmv(&self, image: &[u8], out: &mut [u8]) -> Written;
    fn to_cowd(&self, image: &[u8], out: &mut [u8]) -> Written;
    fn close(&self, image: &[u8], out: &mut [u8]) -> Closed;
    fn descriptor(&self, text: &[u8], list: &mut [Extent]) -> Described;
    fn find(&self, list: &[Extent], sector: u64) -> Found;
    fn split(&self, text: &[u8], files: &[u8], lengths: &[u64], sector: u64) -> Located;
}

/// The plain implementation.
pub struct Plain;

impl Side for Plain {
    fn check(&self, image: &[u8]) -> Verdict {
        plain::check(image)
    }
    fn check_in(&self, image: &[u8], list: &mut [u64]) -> Marked {
        plain::check_in(image, list)
    }
    fn profile(&self, image: &[u8]) -> Verdict {
        plain::profile(image)
    }
    fn header(&self, image: &[u8]) -> Head {
        plain::header(image)
    }
    fn lookup(&self, image: &[u8], sector: u64) -> Located {
        plain::lookup(image, sector)
    }
    fn steps(&self, image: &[u8], sector: u64) -> Steps {
        plain::steps(image, sector)
    }
    fn chain(&self, layers: &[u8], lengths: &[u64], sector: u64) -> Located {
        plain::chain(layers, lengths, sector)
    }
    fn read(&self, image: &[u8], sector: u64) -> Part {
        plain::read(image, sector)
    }
    fn frame(&self, image: &[u8], list: &mut [u64]) -> Framed {
        plain::frame(image, list)
    }
    fn survey(
        &self,
        images: &[u8],
        lengths: &[u64],
        rows: &mut [u64],
        tally: &mut [u64],
    ) -> Surveyed {
        plain::survey(images, lengths, rows, tally)
    }
    fn mend(&self, image: &mut [u8], good: u64, changes: &mut [u64]) -> Mended {
        plain::mend(image, good, changes)
    }
    fn normal(&self, image: &[u8], out: &mut [u8]) -> Written {
        plain::over(plain::normal(image, out.len()), out)
    }
    fn collapse(&self, lower: &[u8], upper: &[u8], out: &mut [u8]) -> Written {
        plain::over(plain::collapse(lower, upper, out.len()), out)
    }
    fn to_kdmv(&self, image: &[u8], out: &mut [u8]) -> Written {
        plain::to_kdmv(image, out)
    }
    fn to_cowd(&self, image: &[u8], out: &mut [u8]) -> Written {
        plain::to_cowd(image, out)
    }
    fn close(&self, image: &[u8], out: &mut [u8]) -> Closed {
        plain::close(image, out)
    }
    fn descriptor(&self, text: &[u8], list: &mut [Extent]) -> Described {
        let (described, extents) = plain::descriptor(text, list.len());
        list[..extents.len()].copy_from_slice(&extents);
        described
    }
    fn find(&self, list: &[Extent], sector: u64) -> Found {
        plain::find(list, sector)
    }
    fn split(&self, text: &[u8], files: &[u8], lengths: &[u64], sector: u64) -> Located {
        plain::split(text, files, lengths, sector)
    }
}

#[cfg(feature = "proved")]
mod proved {
    use super::*;
    use anhkhovet::raw::{self, Extent as Record};

    /// The proved library, through its C face.
    pub struct Proved;

    /// A struct of the one side from the other's, field by field.
    macro_rules! same {
        ($from:expr => $to:ident { $($field:ident),* }) => {{
            let from = $from;
            $to { $($field: from.$field),* }
        }};
    }

    impl Side for Proved {
        fn check(&self, image: &[u8]) -> Verdict {
            same!(raw::check(image) => Verdict { number, place, capacity, grain_size })
        }
        fn check_in(&self, image: &[u8], list: &mut [u64]) -> Marked {
            same!(raw::check_in(image, list) => Marked { number, place, capacity, grain_size, marked })
        }
        fn profile(&self, image: &[u8]) -> Verdict {
            same!(raw::profile(image) => Verdict { number, place, capacity, grain_size })
        }
        fn header(&self, image: &[u8]) -> Head {
            same!(raw::header(image) => Head { number, place, capacity, grain_size, descriptor, descriptor_sectors, dirty })
        }
        fn lookup(&self, image: &[u8], sector: u64) -> Located {
            same!(raw::lookup(image, sector) => Located { number, layer, place, kind, sector, size, offset })
        }
        fn steps(&self, image: &[u8], sector: u64) -> Steps {
            same!(raw::steps(image, sector) => Steps {
                number, place, one_is_zero, grain, directory_at, directory_entry, table_at, table_entry,
                kind, sector, size, offset
            })
        }
        fn chain(&self, layers: &[u8], lengths: &[u64], sector: u64) -> Located {
            same!(raw::chain(layers, lengths, sector) => Located { number, layer, place, kind, sector, size, offset })
        }
        fn read(&self, image: &[u8], sector: u64) -> Part {
            same!(raw::read_part(image, sector) => Part { at, length })
        }
        fn frame(&self, image: &[u8], list: &mut [u64]) -> Framed {
            same!(raw::frame(image, list) => Framed { number, place, count })
        }
        fn survey(
            &self,
            images: &[u8],
            lengths: &[u64],
            rows: &mut [u64],
            tally: &mut [u64],
        ) -> Surveyed {
            same!(raw::survey(images, lengths, rows, tally) => Surveyed { number, place, stored, zero, absent, packed })
        }
        fn mend(&self, image: &mut [u8], good: u64, changes: &mut [u64]) -> Mended {
            same!(raw::mend(image, good, changes) => Mended { number, place, count })
        }
        fn normal(&self, image: &[u8], out: &mut [u8]) -> Written {
            same!(raw::normal(image, out) => Written { number, place, length })
        }
        fn collapse(&self, lower: &[u8], upper: &[u8], out: &mut [u8]) -> Written {
            same!(raw::collapse(lower, upper, out) => Written { number, place, length })
        }
        fn to_kdmv(&self, image: &[u8], out: &mut [u8]) -> Written {
            same!(raw::to_kdmv(image, out) => Written { number, place, length })
        }
        fn to_cowd(&self, image: &[u8], out: &mut [u8]) -> Written {
            same!(raw::to_cowd(image, out) => Written { number, place, length })
        }
        fn close(&self, image: &[u8], out: &mut [u8]) -> Closed {
            same!(raw::close(image, out) => Closed { number, place, sectors, grains, length })
        }
        fn descriptor(&self, text: &[u8], list: &mut [Extent]) -> Described {
            let mut records: Vec<Record> = list.iter().map(record).collect();
            let described = raw::descriptor(text, &mut records);
            for (to, from) in list.iter_mut().zip(&records) {
                *to = same!(from => Extent { first, sectors, access, kind, name_at, name_length, offset });
            }
            same!(described => Described { number, place, extents, version, cid, parent_cid, type_at, type_length })
        }
        fn find(&self, list: &[Extent], sector: u64) -> Found {
            let records: Vec<Record> = list.iter().map(record).collect();
            same!(raw::find(&records, sector) => Found { number, place, extent })
        }
        fn split(&self, text: &[u8], files: &[u8], lengths: &[u64], sector: u64) -> Located {
            same!(raw::split(text, files, lengths, sector) => Located { number, layer, place, kind, sector, size, offset })
        }
    }

    fn record(extent: &Extent) -> Record {
        same!(extent => Record { first, sectors, access, kind, name_at, name_length, offset })
    }
}

#[cfg(feature = "proved")]
pub use proved::Proved;

/// The side under test: the proved one, or without the feature `proved` the plain one, so that it meets itself.
#[cfg(feature = "proved")]
pub fn tested() -> &'static dyn Side {
    &Proved
}

/// The side under test: the proved one, or without the feature `proved` the plain one, so that it meets itself.
#[cfg(not(feature = "proved"))]
pub fn tested() -> &'static dyn Side {
    println!("built without the feature `proved`: the plain side meets itself");
    &Plain
}
