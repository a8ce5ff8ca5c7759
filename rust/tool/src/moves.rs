//! `move`: images written as the other kind, and the digest of all sectors of each result.

use crate::cli::Target;
use crate::cowd::Cowd;
use crate::descriptor::{self, Beside};
use crate::failure::{Failure, Refusal, Status};
use crate::files::{same, Layers};
use crate::given::Given;
use crate::grains::Grains;
use crate::hash::Piece;
use crate::hint::hinted;
use crate::layer::Layer;
use crate::lent::{self, Lent};
use crate::names::{hex, name, put_name};
use crate::output::Output;
use crate::print;
use crate::progress::Progress;
use crate::room::Kind;
use crate::whole::hashed;
use crate::write::{mapped, refusal};
use anhkhovet::Source;
use serde_json::{json, Value};
use std::collections::BTreeSet;
use std::path::{Path, PathBuf};

const NOT_TAKEN: u64 = 23;
const NOT_MOVABLE: u64 = 44;

const NO_FOLDER: &str = "is not a folder that is there, and several files are to be written";
const ONE_DESCRIPTOR: &str = "is the name of one descriptor, and several files are to be written";
const TO_COWD: &str = "goes to COWD, and a descriptor is written of what goes to KDMV alone";
const ONE_NAME: &str =
    "has the name of another one of the files, and both would be written to one output";

/// What was written.
struct Moved {
    kind: Kind,
    length: u64,
    /// SHA-256 of all sectors in order, absent ones as zeros.
    digest: String,
    /// Its descriptor's path, if it got one.
    descriptor: Option<PathBuf>,
}

/// By the file's own kind. What is neither is refused by either call.
fn way(image: &[u8]) -> Kind {
    if image.starts_with(b"COWD") {
        Kind::Kdmv
    } else {
        Kind::Cowd
    }
}

/// Why an image is not moved, asked with no output at all.
fn judged(image: &mut Layers, kind: Kind) -> Result<(), Failure> {
    let asked = image.ask(0, |bytes| match kind {
        Kind::Kdmv => anhkhovet::to_kdmv(bytes, &mut []),
        Kind::Cowd => anhkhovet::to_cowd(bytes, &mut []),
    })?;
    let why = match refusal(asked) {
        Some(why) => why,
        None => return Ok(()),
    };
    let mut refusal = Refusal::new(why, Some(image.path(0)));
    refusal.detail = match why.number {
        NOT_TAKEN => "it is compressed".to_string(),
        NOT_MOVABLE => unmovable(image.bytes(0)),
        _ => String::new(),
    };
    image.same()?;
    Err(Failure::Refused(refusal))
}

/// What of an accepted image the other kind has no place for: KDMV for the grain size, COWD for a grain.
fn unmovable(image: &[u8]) -> String {
    if let Some(old) = Cowd::of(image) {
        return format!("its grain size is {}", old.disk.grain_size);
    }
    let disk = match anhkhovet::header(image) {
        Ok(header) => header.disk,
        Err(_) => return String::new(),
    };
    let size = disk.grain_size;
    let mut grains = (0..disk.capacity).step_by(size as usize);
    let zero = grains.find(|first| anhkhovet::lookup(image, *first) == Ok(Source::Zero));
    zero.map_or_else(String::new, |first| {
        format!("grain {} is marked as zeros", first / size)
    })
}

/// The digest of a result's sectors in order, as a raw disk of them would have it. No lookup takes COWD: there entries tell, which
/// are judged as they are read back.
fn digest(kind: Kind, mut result: Layers) -> Result<String, Failure> {
    let files = result.files();
    let hash = match kind {
        Kind::Cowd => {
            judged(&mut result, Kind::Kdmv)?;
            let changed = || Failure::changed(result.path(0));
            let old = Cowd::of(result.bytes(0)).ok_or_else(changed)?;
            hashed(&files, &Grains::of(old.disk), |first, sectors| {
                Ok(Piece::known(first, sectors, old.place(first, sectors)))
            })?
        }
        Kind::Kdmv => {
            let mut given = Given::Layers(result);
            let cut = given.grains()?;
            hashed(&files, &cut, |first, sectors| {
                Piece::of(&mut given, first, sectors)
            })?
        }
    };
    same(&files)?;
    Ok(hex(&hash))
}

/// One image, of all that are read, and its descriptor if that has a name.
fn moved(
    path: &Path,
    target: &Target,
    descriptor: Option<&Path>,
    inputs: &[PathBuf],
) -> Result<Moved, Failure> {
    let mut image = Layers::to_move(Layer::open(path)?)?;
    let output = Output::create(target, inputs)?;
    let kind = way(image.bytes(0));
    if kind == Kind::Cowd && descriptor.is_some() {
        return Err(Failure::Misused(path.to_path_buf(), TO_COWD));
    }
    let beside = Beside::create(descriptor, target, inputs)?;
    judged(&mut image, kind)?;
    let mut mapped = mapped(kind, output, &[&image])?;
    let written = lent::moved(kind, &Lent::of(&image)?, &mut mapped.map);
    image.same()?;
    let length = written.map_err(Failure::refused(path))?;
    let output = mapped.cut(length)?;
    let result = Layer::of(&target.path, output.file()?)?;
    let digest = digest(kind, Layers::to_move(result)?)?;
    Ok(Moved {
        kind,
        length,
        digest,
        descriptor: descriptor::finished(output, beside)?,
    })
}

impl Moved {
    fn line(&self, path: &Path, to: &Path) -> String {
        let (kind, length, digest) = (self.kind.word(), self.length, &self.digest);
        let (from, to) = (name(path), name(to));
        let beside = self
            .descriptor
            .as_deref()
            .map(|path| descriptor::line(path, &to));
        let beside = beside.unwrap_or_default();
        format!(
            "{from}: moved to {kind}: {to}, {length} bytes, its sectors' digest {digest}\n{beside}"
        )
    }

    fn object(&self, path: &Path, to: &Path) -> Value {
        let mut object = json!({
            "kind": self.kind.word(),
            "length": self.length,
            "digest": self.digest,
        });
        put_name(&mut object, "file", path);
        put_name(&mut object, "output", to);
        if let Some(path) = &self.descriptor {
            put_name(&mut object, "descriptor", path);
        }
        object
    }
}

pub fn run(
    paths: &[PathBuf],
    target: &Target,
    descriptor: Option<&Path>,
    json: bool,
) -> Result<(), Failure> {
    let folder = target.path.is_dir();
    match (paths, descriptor) {
        ([path], _) if !folder => one(path, target, descriptor, json),
        _ if !folder => Err(Failure::Misused(target.path.clone(), NO_FOLDER)),
        ([_, _, ..], Some(name)) => Err(Failure::Misused(name.to_path_buf(), ONE_DESCRIPTOR)),
        _ => Folder::of(paths, target, descriptor)?.each(json),
    }
}

fn one(path: &Path, target: &Target, descriptor: Option<&Path>, json: bool) -> Result<(), Failure> {
    let progress = Progress::start("moving", 0);
    let moved = moved(path, target, descriptor, &[path.to_path_buf()])?;
    drop(progress);
    print::answer(
        json,
        || moved.line(path, &target.path),
        || moved.object(path, &target.path),
    )
}

/// Files that go to a folder under their own names.
struct Folder<'a> {
    paths: &'a [PathBuf],
    targets: Vec<Target>,
    /// Of a single file.
    descriptor: Option<&'a Path>,
}

impl Folder<'_> {
    fn of<'a>(
        paths: &'a [PathBuf],
        folder: &Target,
        descriptor: Option<&'a Path>,
    ) -> Result<Folder<'a>, Failure> {
        let mut names = BTreeSet::new();
        let mut targets = Vec::new();
        for path in paths {
            // A path without a last name is no file's, and is told so when it is opened.
            let name = path.file_name().unwrap_or_default();
            if !names.insert(name) {
                return Err(Failure::Misused(path.clone(), ONE_NAME));
            }
            targets.push(Target {
                path: folder.path.join(name),
                force: folder.force,
            });
        }
        Ok(Folder {
            paths,
            targets,
            descriptor,
        })
    }

    /// Each file, whatever is wrong with another; the worst status of all.
    fn each(&self, json: bool) -> Result<(), Failure> {
        let mut worst = None;
        if json {
            print::members(|all| {
                all.list("files", |take| {
                    self.taken(&mut worst, |path, to, moved| match moved {
                        Ok(moved) => take(&moved.object(path, to)),
                        Err(failure) => {
                            let mut object = failure.json();
                            put_name(&mut object, "file", path);
                            take(&object)
                        }
                    })
                })
            })?;
        } else {
            let mut count = 0;
            self.taken(&mut worst, |path, to, moved| {
                let line = moved.map(|moved| moved.line(path, to));
                count += u64::from(line.is_ok());
                line.map_or(Ok(()), |line| print::text(&line))
            })?;
            print::text(&format!("{count} of {} files moved\n", self.paths.len()))?;
        }
        worst.map_or(Ok(()), |status| Err(Failure::Told(status)))
    }

    /// Hands over what became of each file; a failure is noted too.
    fn taken(
        &self,
        worst: &mut Option<Status>,
        mut take: impl FnMut(&Path, &Path, Result<Moved, Failure>) -> Result<(), Failure>,
    ) -> Result<(), Failure> {
        for (number, (path, target)) in self.paths.iter().zip(&self.targets).enumerate() {
            let doing = format!(
                "moving {} of {}: {}",
                number + 1,
                self.paths.len(),
                name(path)
            );
            let progress = Progress::start(&doing, 0);
            let moved = moved(path, target, self.descriptor, self.paths).map_err(hinted);
            drop(progress);
            if let Err(failure) = &moved {
                print::note(&failure.to_string());
                *worst = (*worst).max(Some(failure.status()));
            }
            take(path, &target.path, moved)?;
        }
        Ok(())
    }
}
