//! An accepted image, lent to the library to be copied from: its grains are the file's, live, and decide nothing; everything else is
//! the tool's own, which stands still.

use crate::failure::Failure;
use crate::files::Layers;
use crate::guard::Watch;
use crate::mapping::Mapping;
use crate::room::Kind;
use anhkhovet::{Refusal, SECTOR};

pub struct Lent {
    map: Mapping,
    _watch: Watch,
}

impl Lent {
    pub fn of(image: &Layers) -> Result<Lent, Failure> {
        let (path, own) = (image.path(0), image.bytes(0));
        let mut map = Mapping::private(image.file(0), own.len())
            .map_err(Failure::system(path, "cannot be mapped"))?;
        let cut = Failure::unfit(
            path,
            "the file was cut while it was read, or cannot be read there, so there is no answer",
        );
        let watch = Watch::new(map.start(), own.len(), &cut.to_string());
        for area in image.frame(0) {
            let from = (area.first * SECTOR) as usize;
            let to = from + (area.sectors * SECTOR) as usize;
            map.put(from, &own[from..to]);
        }
        Ok(Lent { map, _watch: watch })
    }
}

// SAFETY for all: what the library decides by is in the frame, which nobody changes (`crates/laws`: images that agree there have
// the same check, lookups and length; COWD files that agree in header, directory in use and its tables have the same answer from
// `to_kdmv`). A grain's bytes go to the output whatever they are, and of that nothing is read.

/// The length of what was written.
pub fn normal(image: &Lent, output: &mut Mapping) -> Result<u64, Refusal> {
    unsafe { anhkhovet::normal(image.map.bytes(), output.bytes_mut()) }
}

/// The length of what was written.
pub fn collapse(lower: &Lent, upper: &Lent, output: &mut Mapping) -> Result<u64, Refusal> {
    unsafe { anhkhovet::collapse(lower.map.bytes(), upper.map.bytes(), output.bytes_mut()) }
}

/// The length of what was written.
pub fn moved(kind: Kind, image: &Lent, output: &mut Mapping) -> Result<u64, Refusal> {
    let (image, output) = unsafe { (image.map.bytes(), output.bytes_mut()) };
    match kind {
        Kind::Kdmv => anhkhovet::to_kdmv(image, output),
        Kind::Cowd => anhkhovet::to_cowd(image, output),
    }
}
