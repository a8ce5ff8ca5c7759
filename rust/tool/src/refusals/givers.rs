//! Which numbers each call of the library and each command of the tool gives.

use std::ops::RangeInclusive;

/// Numbers, in the order in which they are asked for.
type Numbers = &'static [RangeInclusive<u64>];

/// Who gives numbers, and which.
pub type Giver = (&'static str, Numbers);

/// A lookup, whether or not it tells its steps.
const LOOKUP: Numbers = &[1..=2, 43..=43, 3..=7, 20..=20, 8..=10];

/// Either move.
const MOVE: Numbers = &[1..=12, 23..=23, 27..=27, 44..=44, 21..=21];

/// The calls of the C face, without the `anhkhovet_` of their names, and the small program, each in its order.
pub const CALLS: [Giver; 20] = [
    ("header", &[1..=2, 43..=43, 3..=7]),
    ("check", &[1..=2, 43..=43, 3..=12]),
    ("check_in", &[1..=2, 43..=43, 3..=11, 21..=21, 12..=12]),
    ("frame", &[1..=2, 43..=43, 3..=8, 21..=21]),
    ("lookup", LOOKUP),
    ("steps", LOOKUP),
    (
        "chain",
        &[24..=24, 1..=2, 43..=43, 3..=7, 22..=22, 20..=20, 8..=10],
    ),
    ("survey", &[24..=24, 21..=21]),
    ("survey's rows", &[1..=2, 43..=43, 3..=12]),
    (
        "normal",
        &[1..=2, 43..=43, 3..=12, 23..=23, 27..=27, 21..=21],
    ),
    (
        "collapse",
        &[1..=2, 43..=43, 3..=12, 23..=23, 22..=22, 27..=27, 21..=21],
    ),
    ("to_kdmv", MOVE),
    ("to_cowd", MOVE),
    (
        "profile",
        &[1..=2, 43..=43, 3..=12, 23..=23, 27..=27, 47..=47, 42..=42],
    ),
    ("mend", &[1..=2, 43..=43, 3..=8, 40..=40, 21..=21]),
    ("close", &[1..=2, 43..=43, 3..=6, 41..=41, 21..=21]),
    ("descriptor", &[36..=36, 31..=31, 30..=30, 32..=35, 21..=21]),
    ("find", &[20..=20]),
    (
        "split",
        &[
            36..=36,
            31..=31,
            30..=30,
            32..=35,
            24..=24,
            20..=20,
            39..=39,
            43..=43,
            45..=45,
            1..=12,
            38..=38,
        ],
    ),
    ("vmdk_check", &[37..=37, 1..=2, 43..=43, 3..=12]),
];

/// What is asked of one sector of an image, of a chain or of a disk of several files.
const SECTOR: Numbers = &[
    1..=12,
    20..=20,
    22..=22,
    24..=24,
    31..=36,
    38..=39,
    43..=43,
    45..=45,
];

/// What is asked of all their sectors.
const DISK: Numbers = &[1..=12, 22..=22, 24..=24, 31..=36, 38..=39, 43..=43, 45..=45];

/// The commands of the tool; several take a descriptor for a disk of several files too.
pub const COMMANDS: [Giver; 17] = [
    ("check", &[1..=12, 31..=36, 38..=39, 43..=43, 45..=45]),
    ("header", &[1..=7, 43..=43]),
    ("profile", &[1..=12, 23..=23, 27..=27, 42..=43, 47..=47]),
    ("survey", &[1..=12, 43..=43]),
    ("sector", SECTOR),
    ("explain", SECTOR),
    ("read", SECTOR),
    ("map", DISK),
    ("digest", SECTOR),
    ("raw", DISK),
    ("picture", &[1..=12, 22..=22, 24..=24, 43..=43]),
    ("describe", &[1..=1, 3..=8, 20..=20, 30..=36, 43..=43]),
    ("collapse", &[1..=12, 22..=23, 27..=27, 43..=43]),
    ("normal", &[1..=12, 23..=23, 27..=27, 43..=43]),
    ("mend", &[1..=8, 40..=40, 43..=43]),
    ("move", &[1..=12, 23..=23, 27..=27, 44..=44]),
    ("close", &[1..=6, 41..=41, 43..=43]),
];

/// Those that give a number.
pub fn of(number: u64, givers: &[Giver]) -> Vec<&'static str> {
    let gives = |numbers: Numbers| numbers.iter().any(|range| range.contains(&number));
    let given = givers.iter().filter(|(_, numbers)| gives(numbers));
    given.map(|(giver, _)| *giver).collect()
}

/// All numbers of a giver, in its order.
pub fn order(numbers: Numbers) -> Vec<u64> {
    numbers.iter().cloned().flatten().collect()
}
