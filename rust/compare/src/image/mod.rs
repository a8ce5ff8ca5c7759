//! Generated images: a shape is chosen, built into bytes, and perhaps damaged.

mod anywhere;
mod build;
mod damage;
mod edges;
mod outside;
mod parts;
mod shape;
mod torn;

pub use anywhere::anywhere;
pub use build::build;
pub use damage::{damage, meet, suited};
pub use shape::{size, up, Plan, Shape};
pub use torn::{on_directories, torn};
#[cfg(test)]
pub use {parts::unused, shape::Cell};

/// What an area of a built image is.
#[derive(Clone, Copy, Debug, PartialEq, Eq)]
pub enum What {
    Header,
    Descriptor,
    Directory,
    Redundant,
    /// The table of a directory entry.
    Table(u64),
    /// The redundant table of a directory entry.
    Copy(u64),
    Grain(u64),
    Footer,
    Last,
}

/// A number in the image: its place in bytes and its size.
#[derive(Clone, Copy, Debug)]
pub struct Field {
    pub at: usize,
    pub size: usize,
}

/// An area, and the fields that say where it stands.
#[derive(Clone, Debug)]
pub struct Area {
    pub what: What,
    pub first: u64,
    pub sectors: u64,
    pub pointers: Vec<Field>,
}

/// An image with what is known of it.
#[derive(Clone)]
pub struct Built {
    pub bytes: Vec<u8>,
    pub shape: Shape,
    pub areas: Vec<Area>,
    /// Virtual sectors worth asking for.
    pub asked: Vec<u64>,
}

impl Built {
    /// F, of the bytes as they are now.
    pub fn sectors(&self) -> u64 {
        self.bytes.len() as u64 / 512
    }

    pub fn put(&mut self, field: Field, value: u64) {
        put(&mut self.bytes, field.at, field.size, value);
    }

    pub fn get(&self, field: Field) -> u64 {
        let mut value = 0;
        for index in (0..field.size).rev() {
            let byte = self.bytes.get(field.at + index).copied().unwrap_or(0);
            value = value << 8 | u64::from(byte);
        }
        value
    }

    /// The areas of one kind.
    pub fn those(&self, is: impl Fn(What) -> bool) -> Vec<Area> {
        let found = self.areas.iter().filter(|area| is(area.what));
        found.cloned().collect()
    }

    /// Where the header's copies start: sector 0, and the footer's sector.
    pub fn headers(&self) -> Vec<usize> {
        let mut starts = vec![0];
        for footer in self.those(|what| what == What::Footer) {
            starts.push(footer.first as usize * 512);
        }
        starts
    }
}

/// Writes a little-endian number; what a cut left no room for is not written.
pub fn put(bytes: &mut [u8], at: usize, size: usize, value: u64) {
    if let Some(place) = bytes.get_mut(at..at + size) {
        place.copy_from_slice(&value.to_le_bytes()[..size]);
    }
}
