//! `collapse` and `normal`: images written by the library into a mapped file.
//!
//! Every refusal is found on the tool's own bytes, before anything is written; then grains are copied from the files.

use crate::alike::unlike;
use crate::cli::Target;
use crate::descriptor::{self, Beside};
use crate::failure::{Failure, Refusal, Status};
use crate::files::Layers;
use crate::hint::NOT_READ;
use crate::lent::{self, Lent};
use crate::names::{name, put_name};
use crate::output::{Mapped, Output};
use crate::parents::Strangers;
use crate::print;
use crate::progress::Progress;
use crate::room::{Kind, Room};
use crate::still_open::{still_open, STILL_OPEN};
use serde_json::json;
use std::path::{Path, PathBuf};

/// The refusal of an output that is too short: where there is none at all, the answer for images that are not refused.
const NO_ROOM: u64 = 21;

/// Why images are refused, asked with no output at all.
pub fn refusal(asked: Result<u64, anhkhovet::Refusal>) -> Option<anhkhovet::Refusal> {
    asked.err().filter(|why| why.number != NO_ROOM)
}

/// An output for what is made of these images, lowest first, which are not refused.
pub fn mapped(kind: Kind, output: Output, images: &[&Layers]) -> Result<Mapped, Failure> {
    let bytes: Vec<&[u8]> = images.iter().map(|image| image.bytes(0)).collect();
    let room = Room::of(kind, &bytes).map_err(Failure::refused(images[0].path(0)))?;
    let most = room.most();
    if output.is_little(most) && output.reserve(most).is_ok() {
        return output.map(most);
    }
    let length = room.counted()?;
    output.reserve(length)?;
    output.map(length)
}

/// Tells of what was written, and of layers that are strangers.
fn told(
    target: &Target,
    length: u64,
    descriptor: Option<&Path>,
    strangers: &Strangers,
    json: bool,
) -> Result<(), Failure> {
    print::answer(
        json,
        || {
            let result = name(&target.path);
            let beside = descriptor.map(|path| descriptor::line(path, &result));
            let beside = beside.unwrap_or_default();
            format!("{result}: written, {length} bytes\n{beside}")
        },
        || {
            let mut object = json!({ "length": length });
            put_name(&mut object, "output", &target.path);
            if let Some(path) = descriptor {
                put_name(&mut object, "descriptor", path);
            }
            for (key, value) in strangers.members() {
                object[key] = value;
            }
            object
        },
    )
}

pub fn normal(
    path: &Path,
    target: &Target,
    descriptor: Option<&Path>,
    json: bool,
) -> Result<(), Failure> {
    let mut image = Layers::one(path)?;
    let inputs = [path.to_path_buf()];
    let output = Output::create(target, &inputs)?;
    let beside = Beside::create(descriptor, target, &inputs)?;
    let progress = Progress::start("writing the normal form", 0);
    let asked = image.ask(0, |bytes| anhkhovet::normal(bytes, &mut []))?;
    if let Some(why) = refusal(asked) {
        image.same()?;
        return Err(Failure::refused(path)(why));
    }
    let mut mapped = mapped(Kind::Kdmv, output, &[&image])?;
    let written = lent::normal(&Lent::of(&image)?, &mut mapped.map);
    image.same()?;
    let length = written.map_err(Failure::refused(path))?;
    let descriptor = descriptor::finished(mapped.cut(length)?, beside)?;
    drop(progress);
    told(
        target,
        length,
        descriptor.as_deref(),
        &Strangers::default(),
        json,
    )
}

/// Whose refusal it is: the library judges the lower image, then the upper one, and tells only the number.
fn blamed(why: anhkhovet::Refusal, lower: (&Path, &[u8]), upper: (&Path, &[u8])) -> Refusal {
    let lowers = match why.number {
        1..=12 | NOT_READ => anhkhovet::check(lower.1).is_err(),
        23 => anhkhovet::normal(lower.1, &mut []) == Err(why),
        _ => false,
    };
    let file = match why.number {
        1..=12 | 23 | NOT_READ if lowers => Some(lower.0),
        1..=12 | 23 | NOT_READ => Some(upper.0),
        _ => None,
    };
    let mut refusal = Refusal::new(why, file);
    if why.number == 22 {
        refusal.detail = unlike(&[lower, upper]);
    }
    refusal
}

/// The lowest image that was still open, which is one of the refused pair, and the others that are to be copied again too.
fn left_open(why: anhkhovet::Refusal, images: &[Layers]) -> Refusal {
    let open = |image: &&Layers| still_open(image.bytes(0)) == Some(true);
    let mut open = images.iter().filter(open).map(|image| image.path(0));
    let mut refusal = Refusal::new(why, open.next());
    let others: Vec<String> = open.map(name).collect();
    if !others.is_empty() {
        refusal.detail = format!("still open too: {}", others.join(", "));
    }
    refusal
}

/// Judges the images pair by pair, lowest first.
fn judged(images: &mut [Layers]) -> Result<(), Failure> {
    for image in &mut *images {
        // What a check decides by is the tool's own then. Its answer comes again below, in its turn.
        let _ = image.ask(0, anhkhovet::check)?;
    }
    for pair in images.windows(2) {
        let [lower, upper] = [&pair[0], &pair[1]].map(|image| (image.path(0), image.bytes(0)));
        if let Some(why) = refusal(anhkhovet::collapse(lower.1, upper.1, &mut [])) {
            images.iter().try_for_each(Layers::same)?;
            return Err(Failure::Refused(match why.number {
                STILL_OPEN => left_open(why, images),
                _ => blamed(why, lower, upper),
            }));
        }
    }
    Ok(())
}

/// Two images in one, which is not finished.
fn merged(lower: &Layers, upper: &Layers, output: Output) -> Result<(Output, u64), Failure> {
    let mut mapped = mapped(Kind::Kdmv, output, &[lower, upper])?;
    let written = lent::collapse(&Lent::of(lower)?, &Lent::of(upper)?, &mut mapped.map);
    lower.same()?;
    upper.same()?;
    let length = written.map_err(|why| Failure::Refused(Refusal::new(why, None)))?;
    Ok((mapped.cut(length)?, length))
}

/// The layers that are no parent and child by their texts, told before all else.
fn strangers(images: &[Layers]) -> Result<Strangers, Failure> {
    let strangers = Strangers::among(&images.iter().collect::<Vec<_>>());
    images.iter().try_for_each(Layers::same)?;
    strangers.judged()?;
    Ok(strangers)
}

pub fn collapse(
    paths: &[PathBuf],
    target: &Target,
    descriptor: Option<&Path>,
    json: bool,
) -> Result<(), Failure> {
    let images = paths.iter().map(|path| Layers::one(path));
    let mut images = images.collect::<Result<Vec<Layers>, Failure>>()?;
    let strangers = strangers(&images)?;
    let mut output = Output::create(target, paths)?;
    let beside = Beside::create(descriptor, target, paths)?;
    let progress = Progress::start("collapsing", 0);
    judged(&mut images)?;
    // From the top down, so that the base, which is often by far the longest, is copied once. The bytes are the same.
    let mut upper = images.pop().ok_or(Failure::Told(Status::Misused))?;
    // What was merged last goes when something was made of it.
    let mut _between = None;
    while let Some(lower) = images.pop() {
        let (merged, length) = merged(&lower, &upper, output)?;
        if images.is_empty() {
            let descriptor = descriptor::finished(merged, beside)?;
            drop(progress);
            return told(target, length, descriptor.as_deref(), &strangers, json);
        }
        upper = Layers::of_file(&target.path, merged.file()?)?;
        _between = Some(merged);
        output = Output::create(target, paths)?;
    }
    Err(Failure::Told(Status::Misused))
}
