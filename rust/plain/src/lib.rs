//! Document 01, as document 02's requests extend it, written out plainly and independently of the proved library, so that the
//! two can be compared.
//!
//! Read it beside them: each file is one section, one request or one call. Nothing here is fast or clever on purpose.

mod answers;
mod chain;
mod check;
mod check_in;
mod close;
mod describe;
mod frame;
mod header;
mod image;
mod layout;
mod line;
mod lookup;
mod mend;
mod moves;
mod numbers;
mod profile;
mod split;
mod steps;
mod survey;
mod write;

pub use answers::{
    Closed, Described, Extent, Found, Framed, Head, Located, Marked, Mended, Part, Refusal, Steps,
    Surveyed, Verdict, Written, ABSENT, PACKED, STORED, ZERO,
};
pub use chain::chain;
pub use check::check;
pub use check_in::check_in;
pub use close::close;
pub use describe::{descriptor, find, MOST_EXTENTS, MOST_TEXT};
pub use frame::frame;
pub use header::header;
pub use lookup::{lookup, read};
pub use mend::mend;
pub use moves::{to_cowd, to_kdmv};
pub use profile::profile;
pub use split::split;
pub use steps::steps;
pub use survey::survey;
pub use write::{collapse, normal, over};
