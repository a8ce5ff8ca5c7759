//! The proved library of disk images, safe to call: sparse VMDK images (KDMV) and descriptor texts, and moves from and to COWD.
//!
//! Every call looks at bytes that are lent to it, keeps nothing, and reads no file. Any bytes and any numbers may be handed in:
//! what breaks a rule is a [`Refusal`], never a fault. What each call answers is document 01's and is proved in `crates/`; the
//! calls of [`raw`] give the same answers as plain numbers, with no list of their own.
//!
//! - [`check`] judges a whole image, and [`check_in`] does so in memory that is lent; [`header`] judges its header alone, and
//!   [`frame`] lists what of it is no grain. [`profile`] judges whether a whole image has the one form of what is published.
//! - [`survey`] judges many images and counts their grains.
//! - [`lookup`] says where a sector comes from, [`steps`] how that is found, [`chain`] the same as the lookup for layers on top of
//!   each other, and [`read`] hands over its bytes.
//! - [`normal`] and [`collapse`] write an image into memory that is lent; [`to_kdmv`] and [`to_cowd`] write one as the other kind.
//!   No other call takes a COWD image: it is refused 43.
//! - [`close`] writes what is missing of a stream that broke off.
//! - [`mend`] brings the tables of one directory in line with those of its copy, in the lent image, and [`changes`] tells what it
//!   changed.
//! - [`descriptor`] reads a descriptor text, and [`find`] says which extent holds a sector; [`split`] says where a sector of a disk of
//!   several files comes from.
//!
//! Words: a *sector* is 512 bytes. An image stores its disk in *grains* of some sectors each; an *entry* of a *table* says where a
//! grain is, and an entry of the *directory* where a table is.
//!
//! # Stack
//!
//! Nine calls keep a mark for each of some eight million sectors on the stack: [`check`], and [`profile`], [`survey`],
//! [`normal`], [`collapse`], [`to_kdmv`], [`to_cowd`], [`split`] and [`mend`], which check. A thread that makes one of them needs
//! [`STACK`] bytes for it beside what it uses itself, or the process ends at the guard below its stack, with nothing overwritten.
//! A main thread has 8 MiB unless `ulimit -s` says less, and a thread of Rust's 2 MiB unless it is asked for less. Every other
//! call does with less than 16 KiB, and none of them calls itself: so [`check_in`], which is [`check`] with its marks in a list of
//! the caller's, runs in a small fixed space.
//!
//! # The archive
//!
//! The archive of the library holds x86-64 code. Where it stands is told in `rust/README.md`.

#![warn(missing_docs)]

mod areas;
mod closing;
mod disks;
mod face;
mod images;
mod marks;
mod mending;
pub mod raw;
mod refusal;
mod sectors;
mod steps;
mod surveys;
mod texts;
mod writing;

pub use areas::{frame, Area, Group};
pub use closing::{close, Closed};
pub use disks::{split, Placed, SplitRefusal};
pub use images::{check, header, profile, Disk, Header};
pub use marks::{check_in, words_needed, Marked, MarkedRefusal};
pub use mending::{changes, mend, Change, Side, CHANGE};
pub use refusal::{ChainRefusal, Counted, MisplacedPart, Refusal};
pub use sectors::{chain, lookup, read, read_part, Located, Source};
pub use steps::{steps, Step, Steps, StepsRefusal, Way};
pub use surveys::{survey, Counts, Survey, Tallied};
pub use texts::{descriptor, find, Access, Descriptor, Extent, ExtentKind};
pub use writing::{collapse, normal, to_cowd, to_kdmv};

/// Bytes of a sector.
pub const SECTOR: u64 = 512;

/// Bytes of stack that are enough for any call: 1 MiB of marks, and room for what stands beside them.
///
#[doc = concat!("```\n", include_str!("../examples/stack.rs"), "```")]
pub const STACK: usize = (1 << 20) + (1 << 16);
