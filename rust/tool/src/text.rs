//! A descriptor's text: where it stands, and whether a file is one.

use crate::failure::Failure;
use crate::frame::ends;
use crate::layer::Layer;
use crate::streams;
use anhkhovet::{Header, SECTOR};
use std::io::Read;
use std::ops::Range;
use std::path::Path;

/// As many bytes of a text are read: one more than document 01 allows, so that the library refuses it.
const MOST: u64 = 65_537;

/// As many bytes has a magic.
const MAGIC: u64 = 4;

/// A descriptor's text, and the header of the image that it is inside of, if it is in one.
pub struct Text {
    pub bytes: Vec<u8>,
    pub image: Option<Header>,
}

impl Text {
    pub fn of_file(path: &Path) -> Result<Text, Failure> {
        let layer = Layer::open(path)?;
        let text = match start(&layer, MOST)? {
            bytes if is_text(&bytes) => Text { bytes, image: None },
            _ => Text::of_image(&layer)?,
        };
        layer.same()?;
        Ok(text)
    }

    /// Header and footer decide where the text is: nothing else is read.
    fn of_image(layer: &Layer) -> Result<Text, Failure> {
        Text::inside(layer, ends(layer)?.bytes())
    }

    /// Of an image whose own bytes have these two.
    pub fn inside(layer: &Layer, own: &[u8]) -> Result<Text, Failure> {
        let header = anhkhovet::header(own).map_err(Failure::refused(&layer.path))?;
        let bytes = layer.part(inside(&layer.path, &header, own)?)?;
        let image = Some(header);
        Ok(Text { bytes, image })
    }

    pub fn of_input(path: &Path) -> Result<Text, Failure> {
        let mut bytes = Vec::new();
        streams::input()
            .and_then(|input| input.take(MOST).read_to_end(&mut bytes))
            .map_err(Failure::system(path, "cannot be read"))?;
        if is_text(&bytes) {
            return Ok(Text { bytes, image: None });
        }
        Err(Failure::Misused(
            path.to_path_buf(),
            "an image is read here and there, so it cannot come from standard input: hand over its file",
        ))
    }

    pub fn part(&self, part: &Range<usize>) -> &[u8] {
        self.bytes.get(part.clone()).unwrap_or(&[])
    }
}

/// The text of a descriptor file; nothing where the file has a magic, or another first line.
pub fn of_descriptor(file: &Layer) -> Result<Option<Text>, Failure> {
    if !is_text(&start(file, MAGIC)?) {
        return Ok(None);
    }
    let text = Text {
        bytes: start(file, MOST)?,
        image: None,
    };
    Ok(Some(text).filter(|text| begins(&text.bytes)))
}

fn start(file: &Layer, most: u64) -> Result<Vec<u8>, Failure> {
    file.part(0..file.length().min(most))
}

/// Whether what begins so is no image, so that it is taken for text: it has no magic at all.
fn is_text(start: &[u8]) -> bool {
    match anhkhovet::header(start) {
        Err(refusal) => refusal.number == 2 || start.len() < MAGIC as usize,
        Ok(_) => false,
    }
}

/// Whether the first line that is not empty is a descriptor's: the library judges it alone. Where it says 36 or 31, it has not
/// come to 30 yet, and the line is none.
fn begins(text: &[u8]) -> bool {
    let blank = |byte: &u8| matches!(byte, b' ' | b'\t' | b'\r');
    let mut lines = text.split(|&byte| byte == b'\n');
    let first = lines.find(|line| !line.iter().all(blank)).unwrap_or(&[]);
    match anhkhovet::descriptor(first) {
        Ok(_) => true,
        Err(refusal) => !matches!(refusal.number, 30 | 31 | 36),
    }
}

/// Where the text stands inside an image.
fn inside(path: &Path, header: &Header, image: &[u8]) -> Result<Range<u64>, Failure> {
    let (first, sectors) = (header.descriptor, header.descriptor_sectors);
    if first == 0 && sectors == 0 {
        return Err(Failure::Lacking(
            path.to_path_buf(),
            "is an extent without a descriptor inside; where there is one, it is a text file that names this extent: describe that",
        ));
    }
    let file = image.len() as u64 / SECTOR;
    if first > 0 && sectors > 0 && sectors <= file && first <= file - sectors {
        let from = first * SECTOR;
        return Ok(from..from + (sectors * SECTOR).min(MOST));
    }
    // The library refuses it for its place, which header and footer tell.
    let refusal = anhkhovet::frame(image).err();
    Err(refusal.map_or_else(|| Failure::changed(path), Failure::refused(path)))
}
