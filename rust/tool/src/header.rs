//! `header`: every field of a header as it stands in the file, what it means, and which rule it meets or breaks. It answers of
//! refused headers too, where it is needed most.

mod footer;
mod kdmv;
mod row;
#[cfg(test)]
mod tests;

use crate::failure::{self, Failure, Status};
use crate::frame::ends;
use crate::hint::hinted;
use crate::layer::Layer;
use crate::names::{name, put_name};
use crate::print;
use crate::still_open::{self, still_open};
use anhkhovet::{Refusal, SECTOR};
use kdmv::Numbers;
use row::{table, Asked, Row};
use serde_json::{json, Value};
use std::path::Path;

/// What is told of a file.
struct Told {
    /// The file's length, then the fields.
    rows: Vec<Row>,
    footer: Vec<Row>,
    /// What the numbers come to, as far as they are known: each with its key and how it is found.
    sums: Vec<(&'static str, u64, String)>,
    one_is_zero: Option<bool>,
    verdict: Result<(), Refusal>,
}

const TOO_SHORT: u64 = 1;
const MAGIC: u64 = 2;
const COWD_GONE: u64 = 43;
const FOOTER: u64 = 7;

/// The order in which the library asks.
const ORDER: [u64; 8] = [TOO_SHORT, MAGIC, COWD_GONE, 3, 4, 5, 6, FOOTER];

const MOVED: &str =
    "COWD is the older kind of sparse image, and no command but `anhkhovet move` takes it";

impl Told {
    /// Of own bytes that have both ends of the file.
    fn of(own: &[u8]) -> Told {
        let verdict = anhkhovet::header(own).map(|_| ());
        let mut told = Told {
            rows: vec![length(own)],
            footer: Vec::new(),
            sums: Vec::new(),
            one_is_zero: None,
            verdict,
        };
        if own.starts_with(b"KDMV") {
            told.kdmv(own);
        } else {
            told.rows.extend(magic(own));
        }
        told
    }

    fn kdmv(&mut self, own: &[u8]) {
        let header = match own.get(..SECTOR as usize) {
            Some(header) => header,
            None => return self.rows.extend(kdmv::cut(own)),
        };
        let numbers = Numbers::of(header);
        self.rows.extend(kdmv::rows(header));
        if numbers.footer() {
            self.rows[0].asked.extend(footer_length(own.len() as u64));
            self.footer = footer::rows(own);
        }
        self.one_is_zero = Some(numbers.one_is_zero());
        if numbers.counted() {
            self.sums = sums(&numbers);
        }
    }

    fn lines(&self) -> String {
        let mut lines = table(self.rows.iter().chain(&self.footer));
        for (_, _, words) in &self.sums {
            lines += &format!("{words}\n");
        }
        match self.one_is_zero {
            Some(true) => lines += "an entry of 1 means zeros: version 2 or 3, and flag 0x4\n",
            Some(false) => lines +=
                "an entry of 1 is sector 1: it means zeros in version 2 or 3 with flag 0x4 alone\n",
            None => {}
        }
        if matches!(self.verdict, Err(refusal) if refusal.number == COWD_GONE) {
            lines += &format!("{MOVED}\n");
        }
        lines + &self.later()
    }

    /// The numbers of all rules that are broken, each once, in the order in which they are asked for.
    fn broken(&self) -> Vec<u64> {
        let rows = self.rows.iter().chain(&self.footer);
        let broken: Vec<u64> = rows.flat_map(Row::broken).collect();
        let order = ORDER.into_iter();
        order.filter(|number| broken.contains(number)).collect()
    }

    /// What a refusal leaves open: it tells the first rule alone.
    fn later(&self) -> String {
        let broken = self.broken();
        let later: Vec<String> = broken.iter().skip(1).map(u64::to_string).collect();
        if later.is_empty() {
            return String::new();
        }
        format!(
            "also broken, and told once this is mended: {}\n",
            later.join(", ")
        )
    }

    fn object(&self) -> Value {
        let rows = |rows: &[Row]| rows.iter().map(Row::object).collect::<Vec<_>>();
        let mut object = json!({
            "fields": rows(&self.rows),
            "footer": rows(&self.footer),
            "broken": self.broken(),
        });
        for (key, sum, _) in &self.sums {
            object["sums"][*key] = json!(sum);
        }
        if let Some(zero) = self.one_is_zero {
            object["one_is_zero"] = json!(zero);
        }
        object
    }
}

/// The file's length, and what it has to be by the magic.
fn length(own: &[u8]) -> Row {
    let length = own.len() as u64;
    let (least, words) = match own {
        [b'C', b'O', b'W', b'D', ..] => (2048, "a COWD header has 2,048 bytes"),
        [b'K', b'D', b'M', b'V', ..] => (SECTOR, "a KDMV header has 512 bytes"),
        _ => (4, "a magic has 4 bytes"),
    };
    let asked = Asked {
        number: TOO_SHORT,
        met: length >= least,
        words,
    };
    Row {
        at: None,
        bytes: Vec::new(),
        name: "length",
        number: Some(length),
        meaning: format!("{length} bytes, F = {} sectors", length / SECTOR),
        asked: vec![asked],
        note: "",
    }
}

/// The length of a file that needs a footer.
fn footer_length(length: u64) -> [Asked; 2] {
    let asked = |met, words| Asked {
        number: FOOTER,
        met,
        words,
    };
    [
        asked(length % SECTOR == 0, "a multiple of 512"),
        asked(length / SECTOR >= footer::LEAST, "F is at least 4"),
    ]
}

/// The first four bytes of what is no KDMV image; nothing where there are fewer.
fn magic(own: &[u8]) -> Option<Row> {
    let bytes = own.get(..4)?.to_vec();
    let cowd = bytes == b"COWD";
    let (number, words) = match cowd {
        true => (COWD_GONE, "KDMV, since COWD is only moved"),
        false => (MAGIC, "4b 44 4d 56, KDMV"),
    };
    Some(Row {
        at: Some(0),
        name: "magic",
        number: None,
        meaning: if cowd { "COWD" } else { "not known" }.to_string(),
        asked: vec![Asked {
            number,
            met: false,
            words,
        }],
        note: "",
        bytes,
    })
}

/// Grains, entries of the directory, and its sectors.
fn sums(numbers: &Numbers) -> Vec<(&'static str, u64, String)> {
    let (capacity, size) = (numbers.capacity, numbers.grain_size);
    let up = |number: u64, by: u64| (number + by - 1) / by;
    let grains = up(capacity, size);
    let entries = up(capacity, 512 * size);
    let sectors = up(4 * entries, SECTOR);
    vec![
        ("grains", grains, format!("grains: {grains} = {capacity} / {size}, rounded up")),
        (
            "directory_entries",
            entries,
            format!("directory entries: {entries} = {capacity} / (512 x {size}), rounded up, each for a table of 4 sectors"),
        ),
        (
            "directory_sectors",
            sectors,
            format!("sectors of the directory: {sectors} = {entries} x 4 / 512, rounded up"),
        ),
    ]
}

pub fn header(path: &Path, json: bool) -> Result<(), Failure> {
    let file = Layer::open(path)?;
    let own = ends(&file)?;
    let told = Told::of(own.bytes());
    file.same()?;
    let refused = |why| hinted(Failure::Refused(failure::Refusal::new(why, Some(path))));
    let refused = told.verdict.err().map(refused);
    let verdict = match &refused {
        Some(failure) => failure.to_string(),
        None => format!(
            "{}: the header meets rules 1 to 7; `anhkhovet check` judges all else",
            name(path)
        ),
    };
    let object = || {
        let mut object = refused.as_ref().map_or_else(|| json!({}), Failure::json);
        if let (Value::Object(object), Value::Object(told)) = (&mut object, told.object()) {
            object.extend(told);
        }
        put_name(&mut object, "file", path);
        still_open::put(&mut object, still_open(own.bytes()));
        object
    };
    print::answer(json, || format!("{verdict}\n{}", told.lines()), object)?;
    refused.map_or(Ok(()), |_| Err(Failure::Told(Status::Refused)))
}
