//! JSON: whole values, and objects that are told member by member, since their lists may be too long to hold.

use crate::failure::Failure;
use crate::names;
use serde::ser::{Error, Serialize, SerializeMap, SerializeSeq, Serializer};
use serde_json::ser::Formatter;
use serde_json::Value;
use std::cell::Cell;
use std::io::{self, Write};

type Json<'a> = serde_json::Serializer<&'a mut dyn Write, Visible>;

/// Strings have nothing in them that acts on a terminal: what JSON leaves as it is, is escaped too.
struct Visible;

impl Formatter for Visible {
    fn write_string_fragment<W: ?Sized + Write>(
        &mut self,
        to: &mut W,
        fragment: &str,
    ) -> io::Result<()> {
        let mut rest = fragment;
        while let Some(at) = rest.find(names::hidden) {
            to.write_all(&rest.as_bytes()[..at])?;
            let mut after = rest[at..].chars();
            if let Some(hidden) = after.next() {
                for unit in hidden.encode_utf16(&mut [0; 2]) {
                    write!(to, "\\u{unit:04x}")?;
                }
            }
            rest = after.as_str();
        }
        to.write_all(rest.as_bytes())
    }
}

/// Nothing but the writer fails here, and it leads to standard output.
fn lost(error: serde_json::Error) -> Failure {
    Failure::Print(error.into())
}

/// A value, whole.
pub fn value(to: &mut dyn Write, value: &Value) -> Result<(), Failure> {
    let mut json = Json::with_formatter(to, Visible);
    value.serialize(&mut json).map_err(lost)
}

/// An object that is being told.
pub struct Object<'a, 'b>(<&'a mut Json<'b> as Serializer>::SerializeMap);

/// Takes the next item of a list.
pub type Take<'a> = &'a mut dyn FnMut(&Value) -> Result<(), Failure>;

/// An object, member by member.
pub fn object(
    to: &mut dyn Write,
    tell: impl FnOnce(&mut Object) -> Result<(), Failure>,
) -> Result<(), Failure> {
    let mut json = Json::with_formatter(to, Visible);
    let mut object = Object(json.serialize_map(None).map_err(lost)?);
    tell(&mut object)?;
    SerializeMap::end(object.0).map_err(lost)
}

impl Object<'_, '_> {
    pub fn member(&mut self, key: &str, value: &(impl Serialize + ?Sized)) -> Result<(), Failure> {
        self.0.serialize_entry(key, value).map_err(lost)
    }

    pub fn members(&mut self, members: Vec<(String, Value)>) -> Result<(), Failure> {
        let mut members = members.iter();
        members.try_for_each(|(key, value)| self.member(key, value))
    }

    /// A member that is a list: `make` hands over its items, one after the other.
    pub fn list(
        &mut self,
        key: &str,
        make: impl FnOnce(Take) -> Result<(), Failure>,
    ) -> Result<(), Failure> {
        let list = List {
            make: Cell::new(Some(make)),
            failure: Cell::new(None),
        };
        let told = self.member(key, &list);
        list.failure.take().map_or(told, Err)
    }
}

/// Stands for a list while it is made. What makes it may fail, and that is kept here: the serializer knows only its own errors.
struct List<M> {
    make: Cell<Option<M>>,
    failure: Cell<Option<Failure>>,
}

impl<M: FnOnce(Take) -> Result<(), Failure>> Serialize for List<M> {
    fn serialize<S: Serializer>(&self, to: S) -> Result<S::Ok, S::Error> {
        let mut list = to.serialize_seq(None)?;
        let mut broken = None;
        let made = self.make.take().map_or(Ok(()), |make| {
            make(&mut |item| {
                list.serialize_element(item).map_err(|error| {
                    broken = Some(error);
                    Failure::Print(io::ErrorKind::Other.into())
                })
            })
        });
        match (broken, made) {
            (Some(error), _) => Err(error),
            (None, Ok(())) => list.end(),
            (None, Err(failure)) => {
                self.failure.set(Some(failure));
                Err(S::Error::custom("the list was not made to its end"))
            }
        }
    }
}
