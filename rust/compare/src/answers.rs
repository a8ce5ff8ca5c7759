//! The table's places: kinds of answers, with the calls that can give them.

mod requests;

pub use requests::REFUSE_COWD;

use crate::tally::Call::{self, *};

/// The calls whose answers are counted by what the image's header has.
const JUDGES: &[Call] = &[Check, CheckIn, Header, Frame, Survey, Mend];

/// Calls that judge all parts of an image.
const OF_PARTS: &[Call] = &[
    Check, CheckIn, Profile, Frame, Survey, Mend, Normal, Collapse, ToKdmv, ToCowd, Split,
];

/// The same, and those that judge the directory and the sector's own table alone.
const OF_TABLES: &[Call] = &[
    Check, CheckIn, Profile, Frame, Survey, Mend, Normal, Collapse, ToKdmv, ToCowd, Split, Lookup,
    Steps, Chain,
];

/// The calls that write.
const WRITES: &[Call] = &[
    CheckIn, Frame, Survey, Mend, Normal, Collapse, ToKdmv, ToCowd, Close,
];

/// The calls that write images of clean ones.
const CLEAN: &[Call] = &[Normal, Collapse, ToKdmv, ToCowd];

/// The calls that take clean images.
const OF_CLEAN: &[Call] = &[Profile, Normal, Collapse, ToKdmv, ToCowd];

/// A kind of answers, and the calls that can give it.
pub type Answer = (&'static str, &'static [Call]);

/// All kinds, in the table's order.
pub fn all() -> impl Iterator<Item = &'static Answer> {
    ANSWERS.iter().chain(requests::ANSWERS)
}

/// Those of document 01 and of requests A1 to A8.
const ANSWERS: &[Answer] = &[
    ("accepted", JUDGES),
    ("accepted, footer", JUDGES),
    ("accepted, redundant", JUDGES),
    ("accepted, descriptor", JUDGES),
    ("accepted, packed", JUDGES),
    ("accepted, n above 1", JUDGES),
    ("accepted, odd length", JUDGES),
    // Request A2: what an entry of 1 is and names, and the refusals that it can lead to.
    ("accepted, 1 is zeros", JUDGES),
    ("accepted, 1 a sector", JUDGES),
    ("accepted, table at 1", &[Check, CheckIn, Frame, Survey]),
    ("accepted, copy at 1", &[Check, CheckIn, Frame, Survey]),
    ("accepted, grain at 1", &[Check, CheckIn, Survey]),
    ("5, flag 0x4 alone", JUDGES),
    ("9, grain at 1", &[Check, CheckIn]),
    ("11, zeros and absent", &[Check, CheckIn]),
    ("11, zeros and a table", &[Check, CheckIn]),
    ("11, 1 and absent", &[Check, CheckIn]),
    ("11, 1 and a table", &[Check, CheckIn]),
    ("12, 1 and 2", &[Check, CheckIn]),
    ("12, entry 1", &[Check, CheckIn]),
    ("absent", &[Lookup, Steps, Chain, Survey, Split]),
    ("zero", &[Lookup, Steps, Chain, Survey, Split]),
    ("stored", &[Lookup, Steps, Chain, Read, Survey, Split]),
    ("packed", &[Lookup, Steps, Chain, Read, Survey, Split]),
    ("stored at 1", &[Lookup, Steps, Chain, Read, Split]),
    ("packed at 1", &[Lookup, Steps, Chain, Read, Split]),
    ("under the top layer", &[Chain]),
    ("empty part", &[Read]),
    ("no table", &[Frame]),
    ("refused by the check", &[Frame]),
    ("image of no bytes", &[Survey]),
    ("1,024 images", &[Survey]),
    ("written, exact room", WRITES),
    ("written, room left", WRITES),
    ("written, grain at 1", &[Normal, Collapse, ToCowd]),
    ("described", &[Descriptor]),
    ("described, 32 extents", &[Descriptor]),
    ("found", &[Find]),
    // Request A4: by the type of the sector's own extent, and where two refusals would hold.
    ("from FLAT", &[Split]),
    ("from VMFS", &[Split]),
    ("from SPARSE", &[Split]),
    ("from ZERO", &[Split]),
    ("from the 32nd extent", &[Split]),
    ("45, short FLAT", &[Split]),
    ("45, short VMFS", &[Split]),
    ("45, COWD in SPARSE", &[Split]),
    ("45, ZERO with bytes", &[Split]),
    ("24, sum that wraps", &[Split]),
    ("24, sector past", &[Split]),
    ("1 to 12, 38 too", &[Split]),
    // Request A5: what dirty images are answered, and where two refusals would hold.
    ("accepted, dirty", JUDGES),
    ("accepted, dirty footer", JUDGES),
    ("from a dirty image", &[Lookup, Steps, Chain, Read, Split]),
    ("27, lower alone", &[Collapse]),
    ("27, upper alone", &[Collapse]),
    ("27, both", &[Collapse]),
    ("27, other than 1", OF_CLEAN),
    ("27, 21 too", CLEAN),
    ("27, room enough", CLEAN),
    ("8 to 12, 27 too", OF_CLEAN),
    ("23, 27 too", OF_CLEAN),
    ("22, 27 too", &[Collapse]),
    // Request A6: by the first area that meets an earlier one, by F and the list's length, and by what the list held.
    ("12, directory", &[CheckIn]),
    ("12, redundant", &[CheckIn]),
    ("12, primary table", &[CheckIn]),
    ("12, redundant table", &[CheckIn]),
    ("12, footer", &[CheckIn]),
    ("12, last sector", &[CheckIn]),
    ("12, grain", &[CheckIn]),
    ("all of F marked", &[CheckIn]),
    ("exact, 64 divides F", &[CheckIn]),
    ("exact, F is one more", &[CheckIn]),
    ("short, 64 divides F", &[CheckIn]),
    ("short, F is one more", &[CheckIn]),
    ("21, else accepted", &[CheckIn]),
    ("21, 12 too", &[CheckIn]),
    ("9 to 11, 21 too", &[CheckIn]),
    ("written, held zeros", &[CheckIn]),
    ("written, held ones", &[CheckIn]),
    // Request A7: by the good side, by what the check said before, and by where the changes are and what they change.
    ("nothing to mend", &[Mend]),
    ("mended, primary", &[Mend]),
    ("mended, redundant", &[Mend]),
    ("mended, good above 1", &[Mend]),
    ("mended from 9", &[Mend]),
    ("mended from 10", &[Mend]),
    ("mended from 11", &[Mend]),
    ("mended, two tables", &[Mend]),
    ("mended, tables turned", &[Mend]),
    ("mended, last grain", &[Mend]),
    ("mended, last entry", &[Mend]),
    ("mended, unused differ", &[Mend]),
    ("mended, zero byte", &[Mend]),
    ("mended, 1 for zeros", &[Mend]),
    ("mended, 1 for sector", &[Mend]),
    ("21, a word short", &[Mend]),
    ("21, a change short", &[Mend]),
    ("21, no list", &[Mend]),
    // Its refusal 40, by the first part that holds, and where another one would hold.
    ("40, one directory", &[Mend]),
    ("40, zeros and absent", &[Mend]),
    ("40, zeros and a table", &[Mend]),
    ("40, absent and a table", &[Mend]),
    ("40, areas meet", &[Mend]),
    ("40, areas meet alone", &[Mend]),
    ("40, 9 after", &[Mend]),
    ("40, 10 after", &[Mend]),
    ("40, 12 by descriptor", &[Mend]),
    ("40, 12 by last sector", &[Mend]),
    ("40, 12 by a grain", &[Mend]),
    ("40, one way only", &[Mend]),
    ("40, 21 too", &[Mend]),
    ("8, 40 too", &[Mend]),
    // Request A8: by the part that 8 names, by whether others lie outside too, and what a lookup serves all the same.
    ("8, descriptor", OF_PARTS),
    ("8, directory", OF_TABLES),
    ("8, redundant", OF_PARTS),
    ("8, primary table", OF_TABLES),
    ("8, redundant table", OF_PARTS),
    ("8, 1 and others", OF_PARTS),
    ("8, 2 and others", OF_PARTS),
    ("8, 3 and 4", OF_PARTS),
    ("8, 4 and 5", OF_PARTS),
    ("8, half a descriptor", OF_PARTS),
    ("8, directory at 0", OF_TABLES),
    ("8, lower alone", &[Collapse]),
    ("8, upper alone", &[Collapse]),
    ("8, below the top", &[Chain]),
    ("20, 8 too", &[Lookup, Steps]),
    ("found, 8 with place 1", &[Lookup, Steps, Chain, Read]),
    ("found, 8 with place 3", &[Lookup, Steps, Chain, Read]),
    ("found, 8 with place 4", &[Lookup, Steps, Chain, Read]),
    ("found, 8 with place 5", &[Lookup, Steps, Chain, Read]),
];
