//! Layers whose own texts say that they are no parent and child: the upper one's parentCID is not the lower one's CID. The
//! rules of a chain take layers in any order, so every answer is what it would be else, and this is told beside it.

use crate::failure::Failure;
use crate::files::Layers;
use crate::layer::Layer;
use crate::names::{name, put_name};
use crate::print;
use crate::text::Text;
use serde_json::{json, Value};
use std::path::PathBuf;
use std::sync::atomic::{AtomicBool, Ordering::SeqCst};

/// The parentCID of an image that has no parent.
const NO_PARENT: u64 = 0xffff_ffff;

/// Whether such layers are a failure.
static STRICT: AtomicBool = AtomicBool::new(false);

pub fn be_strict(strict: bool) {
    STRICT.store(strict, SeqCst);
}

/// Neighbours in a chain that are such.
#[derive(Default)]
pub struct Strangers(Vec<Stranger>);

struct Stranger {
    /// The number of the upper layer.
    layer: usize,
    lower: PathBuf,
    upper: PathBuf,
    cid: u64,
    parent_cid: u64,
}

/// CID and parentCID, if the image has a text inside that says them.
fn said(file: &Layer, own: &[u8]) -> Option<(u64, u64)> {
    let text = Text::inside(file, own).ok()?;
    let said = anhkhovet::descriptor(&text.bytes).ok()?;
    Some((said.cid, said.parent_cid))
}

impl Stranger {
    fn of(layer: usize, lower: &Told, upper: &Told) -> Option<Stranger> {
        let (cid, parent_cid) = (lower.1?.0, upper.1?.1);
        (cid != parent_cid).then(|| Stranger {
            layer,
            lower: lower.0.clone(),
            upper: upper.0.clone(),
            cid,
            parent_cid,
        })
    }

    fn sentence(&self) -> String {
        let (lower, cid, parent) = (name(&self.lower), self.cid, self.parent_cid);
        let none = match parent {
            NO_PARENT => " (no parent)",
            _ => "",
        };
        format!(
            "its text has parentCID {parent:08x}{none}, and {lower} below it has CID {cid:08x}: by their texts they are no parent and child"
        )
    }

    fn object(&self) -> Value {
        let mut object = json!({
            "layer": self.layer,
            "parent_cid": format!("{:08x}", self.parent_cid),
            "cid": format!("{:08x}", self.cid),
        });
        put_name(&mut object, "file", &self.upper);
        put_name(&mut object, "below", &self.lower);
        object
    }
}

/// A layer's path, and what its text says.
type Told = (PathBuf, Option<(u64, u64)>);

impl Strangers {
    /// Among the layers of these images, lowest first.
    pub fn among(images: &[&Layers]) -> Strangers {
        let layers = images.iter().flat_map(|image| {
            let own = (0..image.count() as u64).map(|layer| image.bytes(layer));
            image.files().into_iter().zip(own)
        });
        let told: Vec<Told> = layers
            .map(|(file, own)| (file.path.clone(), said(&file, own)))
            .collect();
        let pairs = told.windows(2).enumerate();
        let strangers =
            pairs.filter_map(|(below, pair)| Stranger::of(below + 1, &pair[0], &pair[1]));
        Strangers(strangers.collect())
    }

    /// A line for each on standard error; where the command is to be strict, the first one is the failure.
    pub fn judged(&self) -> Result<(), Failure> {
        for stranger in &self.0 {
            let sentence = stranger.sentence();
            if STRICT.load(SeqCst) {
                let told = format!("{sentence}, and --strict takes no such layers");
                return Err(Failure::Unrelated(stranger.upper.clone(), told));
            }
            print::note(&format!("{}: {sentence}", name(&stranger.upper)));
        }
        Ok(())
    }

    /// `unrelated`, where there are such layers.
    pub fn members(&self) -> Vec<(String, Value)> {
        if self.0.is_empty() {
            return Vec::new();
        }
        let all: Vec<Value> = self.0.iter().map(Stranger::object).collect();
        vec![("unrelated".to_string(), json!(all))]
    }
}
