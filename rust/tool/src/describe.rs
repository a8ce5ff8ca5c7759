//! `describe`: what a descriptor says, in a file of its own or inside an image.

use crate::beside;
use crate::cli::stream;
use crate::described::said;
use crate::failure::Failure;
use crate::frame::ends;
use crate::names::{name, put_bytes, shown};
use crate::print;
use crate::still_open::{self, still_open, OpenImages};
use crate::text::Text;
use anhkhovet::{Access, Descriptor, Extent, ExtentKind, Header};
use serde_json::{json, Value};
use std::path::Path;

/// What is told of a text.
struct Told<'a> {
    path: &'a Path,
    text: &'a Text,
    said: Descriptor,
    /// The file of each extent; only of a text that is a file of its own.
    files: Option<Vec<Beside>>,
}

/// Whether an extent's image was still open, where that can be read, or why its file cannot be used.
type Beside = Result<Option<bool>, Failure>;

/// ZERO has no file, plain sectors have no header, and the files of NOACCESS and VMFSSPARSE are not opened.
fn look(path: &Path, text: &Text, extent: &Extent) -> Beside {
    if extent.kind == ExtentKind::Zero {
        return Ok(None);
    }
    let name = text.part(&extent.name);
    beside::find(path, name)?;
    match (extent.access, extent.kind) {
        (Access::ReadWrite | Access::ReadOnly, ExtentKind::Sparse) => Ok(open(path, name)),
        _ => Ok(None),
    }
}

/// Whether the image in a file was still open; nothing where that cannot be read.
fn open(path: &Path, name: &[u8]) -> Option<bool> {
    let file = beside::open(path, name).ok()?;
    let open = still_open(ends(&file).ok()?.bytes());
    file.same().ok()?;
    open
}

impl<'a> Told<'a> {
    fn of(path: &'a Path, text: &'a Text) -> Result<Told<'a>, Failure> {
        let said = anhkhovet::descriptor(&text.bytes).map_err(Failure::refused(path))?;
        let extents = said.extents.iter();
        let beside = text.image.is_none() && !stream(path);
        let files = beside.then(|| extents.map(|extent| look(path, text, extent)).collect());
        Ok(Told {
            path,
            text,
            said,
            files,
        })
    }

    /// Of the image that the text is inside of, or of those that it names and that are there; nothing where there is none.
    fn still_open(&self) -> Option<bool> {
        let around = self.text.image.as_ref().map(Header::still_open);
        let named = self.files.iter().flatten().flatten().flatten();
        named.copied().chain(around).max()
    }

    /// The images among the files of the extents that were still open.
    fn open_extents(&self) -> OpenImages {
        let files = self.files.iter().flatten().enumerate();
        let open = files.filter(|(_, file)| matches!(file, Ok(Some(true))));
        OpenImages::of(open.map(|(number, _)| {
            let extent = &self.said.extents[number];
            let file = beside::path(self.path, self.text.part(&extent.name));
            let told = format!("{}: extent {number}: {}", name(self.path), name(&file));
            (told, file)
        }))
    }

    fn extent(&self, number: usize) -> Value {
        let extent = &self.said.extents[number];
        let mut object = said(self.text, extent);
        if let (Some(files), true) = (&self.files, extent.kind != ExtentKind::Zero) {
            object["there"] = json!(files[number].is_ok());
            match &files[number] {
                Ok(open) => still_open::put(&mut object, *open),
                Err(failure) => object["why"] = json!(failure.to_string()),
            }
        }
        object
    }

    fn object(&self) -> Value {
        let (text, said) = (self.text, &self.said);
        let extents = (0..said.extents.len()).map(|number| self.extent(number));
        let mut object = json!({
            "embedded": text.image.is_some(),
            "version": said.version,
            "cid": format!("{:08x}", said.cid),
            "parent_cid": format!("{:08x}", said.parent_cid),
            "extents": extents.collect::<Vec<_>>(),
        });
        put_bytes(&mut object, "create_type", text.part(&said.create_type));
        still_open::put(&mut object, self.still_open());
        object
    }

    fn lines(&self) -> String {
        let (text, said) = (self.text, &self.said);
        let place = if text.image.is_some() {
            "inside an image"
        } else {
            "a file of its own"
        };
        let parent = if said.parent_cid == 0xffff_ffff {
            " (no parent)"
        } else {
            ""
        };
        let mut all = format!(
            "descriptor: {place}\nversion: {}\nCID: {:08x}\nparentCID: {:08x}{parent}\ncreateType: {}\n",
            said.version,
            said.cid,
            said.parent_cid,
            shown(text.part(&said.create_type)),
        );
        let file = self.files.as_ref().map_or("", |_| " file     ");
        all += &format!(
            "extent        first      sectors access   type           offset{file} name\n"
        );
        (0..said.extents.len()).for_each(|number| all += &self.line(number));
        all + &self.missing()
    }

    fn line(&self, number: usize) -> String {
        let extent = &self.said.extents[number];
        let mut line = format!(
            "{number:>6} {:>12} {:>12} {:<8} {:<10} {:>10}",
            extent.first,
            extent.sectors,
            extent.access.word(),
            extent.kind.word(),
            extent.offset,
        );
        if !extent.name.is_empty() {
            line += match self.files.as_ref().map(|files| &files[number]) {
                None => " ",
                Some(Ok(_)) => " there     ",
                Some(Err(_)) => " not there ",
            };
            line += &shown(self.text.part(&extent.name));
        }
        line + "\n"
    }

    /// Why files are not there.
    fn missing(&self) -> String {
        let files = self.files.iter().flatten().enumerate();
        let told = files.filter_map(|(number, file)| Some((number, file.as_ref().err()?)));
        told.map(|(number, failure)| format!("extent {number}: {failure}\n"))
            .collect()
    }
}

/// The image that a text is inside of, if it was still open.
fn around(path: &Path, text: &Text) -> OpenImages {
    let open = text.image.iter().filter(|header| header.still_open());
    OpenImages::of(open.map(|_| (name(path), path.to_path_buf())))
}

pub fn describe(path: &Path, sector: Option<u64>, json: bool) -> Result<(), Failure> {
    let text = if stream(path) {
        Text::of_input(path)?
    } else {
        Text::of_file(path)?
    };
    around(path, &text).note();
    let told = Told::of(path, &text)?;
    told.open_extents().note();
    let (mut lines, mut object) = (told.lines(), told.object());
    if let Some(sector) = sector {
        let found = anhkhovet::find(&told.said.extents, sector);
        let extent = found.map_err(Failure::refused(path))?;
        let held = format!("sector {sector}: extent {extent}\n");
        lines += &held;
        object["sector"] = json!({ "sector": sector, "extent": extent });
    }
    print::answer(json, || lines, || object)
}
