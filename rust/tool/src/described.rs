//! A descriptor file: what it says of its extents, and their files.

use crate::beside;
use crate::failure::Failure;
use crate::layer::Layer;
use crate::names::{put_bytes, put_name};
use crate::text::{self, Text};
use anhkhovet::{Extent, ExtentKind};
use serde_json::{json, Value};
use std::path::{Path, PathBuf};
use std::sync::Arc;

pub struct Described {
    pub file: Arc<Layer>,
    pub text: Text,
    pub extents: Vec<Extent>,
}

/// What a file is: a descriptor, or anything else, which is taken for an image.
pub enum Opened {
    Image(Layer),
    Descriptor(Described),
}

impl Opened {
    pub fn at(path: &Path) -> Result<Opened, Failure> {
        let file = Layer::open(path)?;
        let text = match text::of_descriptor(&file)? {
            Some(text) => text,
            None => return Ok(Opened::Image(file)),
        };
        let said = anhkhovet::descriptor(&text.bytes);
        file.same()?;
        Ok(Opened::Descriptor(Described {
            extents: said.map_err(Failure::refused(path))?.extents,
            file: Arc::new(file),
            text,
        }))
    }
}

impl Described {
    fn name(&self, extent: usize) -> &[u8] {
        self.text.part(&self.extents[extent].name)
    }

    /// The path of an extent's file; ZERO has none.
    pub fn path(&self, extent: usize) -> Option<PathBuf> {
        let named = self.extents[extent].kind != ExtentKind::Zero;
        named.then(|| beside::path(&self.file.path, self.name(extent)))
    }

    pub fn open(&self, extent: usize) -> Result<Layer, Failure> {
        beside::open(&self.file.path, self.name(extent))
    }

    /// What is wrong with an extent, told with its number.
    pub fn blamed(&self, extent: usize) -> impl FnOnce(Failure) -> Failure + '_ {
        move |failure| {
            let descriptor = self.file.path.clone();
            Failure::Extent(descriptor, extent as u64, Box::new(failure))
        }
    }

    /// What the text says of an extent, and its file's path.
    pub fn object(&self, extent: usize) -> Value {
        let mut object = said(&self.text, &self.extents[extent]);
        if let Some(path) = self.path(extent) {
            put_name(&mut object, "file", &path);
        }
        object
    }
}

/// What a text says of an extent.
pub fn said(text: &Text, extent: &Extent) -> Value {
    let mut object = json!({
        "first": extent.first,
        "sectors": extent.sectors,
        "access": extent.access.word(),
        "type": extent.kind.word(),
        "offset": extent.offset,
    });
    put_bytes(&mut object, "name", text.part(&extent.name));
    object
}
