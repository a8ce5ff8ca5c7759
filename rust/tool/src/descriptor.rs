//! `--descriptor`: a text beside a result. Results have none inside, by the rules, and other programs open an image by one.

use crate::alike::disk;
use crate::beside::plain_name;
use crate::cli::Target;
use crate::failure::Failure;
use crate::frame::ends;
use crate::layer::Layer;
use crate::names::name;
use crate::output::Output;
use std::os::unix::ffi::OsStrExt;
use std::path::{Path, PathBuf};

const FOLDER: &str = "has a folder in its name, and a descriptor is written beside the result";
const ITSELF: &str = "is the result's own name, and its descriptor needs another";
const UNNAMED: &str = "has a name that no descriptor can hold: one of 1 to 255 bytes, without quotes, backslashes and line ends";

/// A descriptor that is to be written once its result is.
pub struct Beside {
    path: PathBuf,
    output: Output,
    result: PathBuf,
}

/// The text of a disk of so many sectors, all in one sparse file. The type is the one for which qemu-img reads a text beside.
fn text(sectors: u64, name: &[u8]) -> Vec<u8> {
    let mut text = b"# Disk DescriptorFile\nversion=1\nCID=fffffffe\nparentCID=ffffffff\n\
        createType=\"twoGbMaxExtentSparse\"\n\n# Extent description\n"
        .to_vec();
    text.extend(format!("RW {sectors} SPARSE \"").into_bytes());
    text.extend(name);
    text.extend(b"\"\n\n# The Disk Data Base\n#DDB\n\n");
    // The shape that qemu-img gives to a disk of any size.
    let cylinders = sectors / (16 * 63);
    text.extend(
        format!(
            "ddb.virtualHWVersion = \"4\"\nddb.geometry.cylinders = \"{cylinders}\"\n\
             ddb.geometry.heads = \"16\"\nddb.geometry.sectors = \"63\"\nddb.adapterType = \"ide\"\n"
        )
        .into_bytes(),
    );
    text
}

/// Whether a text can name the result: the library is asked, and the file has to be found by that name again.
fn nameable(name: &[u8]) -> bool {
    let text = text(1, name);
    let said = anhkhovet::descriptor(&text);
    let found = said
        .ok()
        .and_then(|said| text.get(said.extents.first()?.name.clone()));
    // qemu-img ends a name there.
    let ended = name.contains(&b'\r');
    found == Some(name) && plain_name(name) && !ended
}

impl Beside {
    /// Under a name beside the result's, if one is asked for. What stands in its way is told here: before the work.
    pub fn create(
        name: Option<&Path>,
        result: &Target,
        inputs: &[PathBuf],
    ) -> Result<Option<Beside>, Failure> {
        let name = match name {
            Some(name) => name,
            None => return Ok(None),
        };
        let misused = |path: &Path, why| Err(Failure::Misused(path.to_path_buf(), why));
        let own = result.path.file_name().unwrap_or_default();
        if !plain_name(name.as_os_str().as_bytes()) {
            return misused(name, FOLDER);
        }
        if name.as_os_str() == own {
            return misused(name, ITSELF);
        }
        if !nameable(own.as_bytes()) {
            return misused(&result.path, UNNAMED);
        }
        let path = result.path.with_file_name(name);
        let force = result.force;
        let target = Target { path, force };
        Ok(Some(Beside {
            output: Output::create(&target, inputs)?,
            path: target.path,
            result: result.path.clone(),
        }))
    }
}

/// Gives a result its name, and then its descriptor, whose path this is.
pub fn finished(result: Output, beside: Option<Beside>) -> Result<Option<PathBuf>, Failure> {
    let mut beside = match beside {
        Some(beside) => beside,
        None => return result.finish().map(|()| None),
    };
    let file = Layer::of(&beside.result, result.file()?)?;
    let written = disk(ends(&file)?.bytes()).map_err(Failure::refused(&beside.result))?;
    result.finish()?;
    let name = beside.result.file_name().unwrap_or_default();
    beside
        .output
        .write(&text(written.capacity, name.as_bytes()))?;
    beside.output.finish()?;
    Ok(Some(beside.path))
}

/// What is told of a descriptor that was written, and of whose.
pub fn line(path: &Path, result: &str) -> String {
    format!("{}: written, the descriptor of {result}\n", name(path))
}
