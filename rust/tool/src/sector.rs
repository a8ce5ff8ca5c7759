//! `sector` and `read`: one virtual sector.

use crate::cli::Target;
use crate::failure::Failure;
use crate::given::Given;
use crate::names::{hex, put_name};
use crate::output::Output;
use crate::print::{self, Printer};
use crate::source;
use anhkhovet::{Located, Source, SECTOR};
use serde_json::{json, Value};
use std::path::PathBuf;

pub fn sector(paths: &[PathBuf], sector: u64, json: bool) -> Result<(), Failure> {
    let mut given = Given::at(paths, sector)?;
    let found = given.locate(sector)?;
    given.same()?;
    print::answer(
        json,
        || source::told(&given, sector, &found) + "\n",
        || source::object(&given, sector, &found),
    )
}

/// A located sector and its bytes.
struct Content {
    given: Given,
    sector: u64,
    found: Located,
}

impl Content {
    fn length(&self) -> u64 {
        match self.found.source {
            Source::Absent | Source::Zero | Source::Stored { .. } => SECTOR,
            Source::Packed { size, .. } => size,
        }
    }

    /// Hands over the bytes, part by part, each read before the files were looked at and found unchanged.
    fn each(&self, mut take: impl FnMut(&[u8]) -> Result<(), Failure>) -> Result<(), Failure> {
        if let Source::Absent | Source::Zero = self.found.source {
            return take(&[0; SECTOR as usize]);
        }
        let place = self.given.place(&self.found, self.sector, 1);
        self.given.each_part(place.file, place.bytes, &mut take)
    }

    fn print(&self) -> Result<(), Failure> {
        let mut printer = Printer::new();
        self.each(|bytes| printer.bytes(bytes))?;
        printer.done()
    }

    fn object(&self, target: Option<&Target>) -> Result<Value, Failure> {
        let mut object = source::object(&self.given, self.sector, &self.found);
        object["length"] = json!(self.length());
        match target {
            Some(target) => put_name(&mut object, "output", &target.path),
            None => {
                let mut digits = String::new();
                self.each(|bytes| {
                    digits += &hex(bytes);
                    Ok(())
                })?;
                object["bytes"] = Value::String(digits);
            }
        }
        Ok(object)
    }
}

pub fn read(
    paths: &[PathBuf],
    sector: u64,
    target: Option<Target>,
    json: bool,
) -> Result<(), Failure> {
    let mut given = Given::at(paths, sector)?;
    let output = match &target {
        Some(target) => Some(Output::create(target, &given.paths())?),
        None => None,
    };
    let found = given.locate(sector)?;
    given.same()?;
    let content = Content {
        given,
        sector,
        found,
    };
    if let Some(mut output) = output {
        content.each(|bytes| output.write(bytes))?;
        output.finish()?;
    }
    if let Source::Packed { size, offset, .. } = found.source {
        print::note(&format!(
            "sector {sector} is packed: these {size} bytes are the closed payload of its whole grain, and once unpacked it is sector {offset} of that"
        ));
    }
    if json {
        print::object(&content.object(target.as_ref())?)
    } else if target.is_none() {
        content.print()
    } else {
        Ok(())
    }
}
