//! The fields of a KDMV header, and what rules 1 to 7 ask of each. The library's header call decides; this says where.

use super::row::{Asked, Row};
use crate::front::FIELDS;
use crate::start::number;

/// The flags that there are.
const FLAGS: [(u64, &str); 5] = [
    (NEWLINE, "newline test"),
    (REDUNDANT, "use redundant"),
    (ZEROED, "zeroed entries"),
    (PACKED, "compressed"),
    (MARKERS, "markers"),
];
const NEWLINE: u64 = 0x1;
const REDUNDANT: u64 = 0x2;
const ZEROED: u64 = 0x4;
const PACKED: u64 = 0x10000;
const MARKERS: u64 = 0x20000;

const NEWLINE_BYTES: &[u8] = b"\n \r\n";

/// The directory sector of an image that has a footer.
pub const AT_END: u64 = u64::MAX;

const PLACE: &str = "not judged here: 8 asks whether it lies in the file";

/// The numbers of a header that rules ask for.
pub struct Numbers {
    pub version: u64,
    flags: u64,
    pub capacity: u64,
    pub grain_size: u64,
    redundant: u64,
    pub directory: u64,
    compression: u64,
}

impl Numbers {
    pub fn of(header: &[u8]) -> Numbers {
        Numbers {
            version: number(header, 4, 4),
            flags: number(header, 8, 4),
            capacity: number(header, 12, 8),
            grain_size: number(header, 20, 8),
            redundant: number(header, 48, 8),
            directory: number(header, 56, 8),
            compression: number(header, 77, 2),
        }
    }

    fn has(&self, flag: u64) -> bool {
        self.flags & flag != 0
    }

    /// Whether a footer tells where the directory is.
    pub fn footer(&self) -> bool {
        self.directory == AT_END && self.has(MARKERS)
    }

    pub fn one_is_zero(&self) -> bool {
        self.version >= 2 && self.has(ZEROED)
    }

    /// Whether capacity and grain size are such that grains can be counted.
    pub fn counted(&self) -> bool {
        capacity_met(self.capacity) && grain_size_met(self.grain_size)
    }

    /// Whether compression, where it is 0 or 1, is what its flag says. Where it is not both fields are marked: nothing tells
    /// which one is wrong.
    fn fits(&self) -> bool {
        self.compression > 1 || self.has(PACKED) == (self.compression == 1)
    }

    /// The bits that are no flags.
    fn unknown(&self) -> u64 {
        self.flags & !FLAGS.iter().map(|(flag, _)| flag).sum::<u64>()
    }

    fn flag_words(&self) -> String {
        let known = FLAGS.iter().filter(|(flag, _)| self.has(*flag));
        let mut words: Vec<String> = known.map(|(_, name)| name.to_string()).collect();
        if self.unknown() != 0 {
            words.push(format!("{:#x} is not known", self.unknown()));
        }
        if words.is_empty() {
            return "0, none".to_string();
        }
        format!("{:#x}, {}", self.flags, words.join(", "))
    }
}

fn capacity_met(capacity: u64) -> bool {
    (1..=1 << 31).contains(&capacity)
}

fn grain_size_met(size: u64) -> bool {
    size.is_power_of_two() && (8..=2048).contains(&size)
}

/// All fields, each with what rules ask of it.
pub fn rows(header: &[u8]) -> Vec<Row> {
    let numbers = Numbers::of(header);
    let mut first = 0;
    let mut rows = Vec::new();
    for (end, name) in FIELDS {
        let bytes = header[first as usize..end as usize].to_vec();
        let value = number(header, first, bytes.len());
        let counts = !matches!(first, 0 | 73 | 79);
        rows.push(Row {
            at: Some(first),
            name,
            number: counts.then_some(value),
            meaning: meaning(&numbers, first, value, &bytes),
            asked: asked(&numbers, first, &bytes),
            note: note(&numbers, first),
            bytes,
        });
        first = end;
    }
    rows
}

/// The fields that are there of a header that the file's end cuts, with nothing asked of them.
pub fn cut(header: &[u8]) -> Vec<Row> {
    let mut whole = header.to_vec();
    whole.resize(512, 0);
    let there = |row: &Row| row.at.unwrap_or(0) as usize + row.bytes.len() <= header.len();
    let mut rows: Vec<Row> = rows(&whole).into_iter().filter(there).collect();
    for row in rows.iter_mut().skip(1) {
        row.asked.clear();
        row.note = "not judged, since the header is cut";
    }
    rows
}

fn meaning(numbers: &Numbers, at: u64, value: u64, bytes: &[u8]) -> String {
    match at {
        0 => "KDMV, a sparse image".to_string(),
        8 => numbers.flag_words(),
        12 | 20 => format!("{value} sectors"),
        28 | 48 | 77 if value == 0 => "0, none".to_string(),
        56 if value == AT_END => "all ones, so the footer tells it".to_string(),
        72 if value == 0 => "0, closed".to_string(),
        72 => format!("{value}, still open when it was copied"),
        73 if bytes == NEWLINE_BYTES => "newline, space, return, newline".to_string(),
        73 => "changed, as by a copy in text mode".to_string(),
        79 => zeros(bytes),
        _ => value.to_string(),
    }
}

/// How much of what may be zeros is.
pub fn zeros(bytes: &[u8]) -> String {
    match bytes.iter().filter(|byte| **byte != 0).count() {
        0 => "zeros".to_string(),
        1 => "1 byte is not 0".to_string(),
        others => format!("{others} bytes are not 0"),
    }
}

fn rule(number: u64, met: bool, words: &'static str) -> Asked {
    Asked { number, met, words }
}

fn asked(numbers: &Numbers, at: u64, bytes: &[u8]) -> Vec<Asked> {
    let at_end = numbers.directory == AT_END;
    match at {
        0 => vec![rule(2, true, "4b 44 4d 56")],
        4 => of_version(numbers),
        8 => of_flags(numbers),
        12 => vec![rule(6, capacity_met(numbers.capacity), "1 to 2^31")],
        20 => vec![rule(
            6,
            grain_size_met(numbers.grain_size),
            "a power of two, 8 to 2,048",
        )],
        44 => vec![rule(6, number(bytes, 0, 4) == 512, "512")],
        48 if numbers.has(REDUNDANT) => vec![rule(
            5,
            numbers.redundant != 0,
            "not 0 where flag 0x2 is set",
        )],
        56 if at_end => vec![rule(
            5,
            numbers.has(MARKERS),
            "all ones only where flag 0x20000 is set",
        )],
        73 if numbers.has(NEWLINE) => vec![rule(
            4,
            bytes == NEWLINE_BYTES,
            "0a 20 0d 0a where flag 0x1 is set",
        )],
        77 => {
            let met = numbers.compression == u64::from(numbers.has(PACKED));
            vec![rule(5, met, "1 where flag 0x10000 is set, else 0")]
        }
        _ => Vec::new(),
    }
}

fn of_version(numbers: &Numbers) -> Vec<Asked> {
    let mut asked = vec![rule(3, (1..=3).contains(&numbers.version), "1, 2 or 3")];
    if numbers.has(ZEROED) {
        asked.push(rule(
            5,
            numbers.version != 1,
            "2 or 3 where flag 0x4 is set",
        ));
    }
    asked
}

fn of_flags(numbers: &Numbers) -> Vec<Asked> {
    let mut asked = vec![rule(
        5,
        numbers.unknown() == 0,
        "0x1, 0x2, 0x4, 0x10000 and 0x20000 alone",
    )];
    let mut ask = |asks: bool, met: bool, words: &'static str| {
        if asks {
            asked.push(rule(5, met, words));
        }
    };
    let (packed, at_end) = (numbers.has(PACKED), numbers.directory == AT_END);
    ask(
        packed || !numbers.fits(),
        numbers.fits(),
        "0x10000 is set exactly where compression is 1",
    );
    ask(numbers.has(MARKERS), packed, "0x20000 needs 0x10000");
    ask(
        numbers.has(REDUNDANT),
        numbers.redundant != 0,
        "0x2 needs a redundant directory",
    );
    ask(
        numbers.has(ZEROED),
        numbers.version != 1,
        "0x4 needs version 2 or 3",
    );
    ask(
        at_end,
        numbers.has(MARKERS),
        "a directory at the end needs 0x20000",
    );
    asked
}

fn note(numbers: &Numbers, at: u64) -> &'static str {
    match at {
        28 | 36 => PLACE,
        48 if numbers.redundant != 0 => PLACE,
        48 if !numbers.has(REDUNDANT) => "not judged: flag 0x2 is not set",
        56 if numbers.directory != AT_END => PLACE,
        64 => "not judged: only `close` goes by it",
        72 => "not judged here: 27 asks for 0",
        73 if !numbers.has(NEWLINE) => "not judged: flag 0x1 is not set",
        79 => "not judged",
        _ => "",
    }
}
