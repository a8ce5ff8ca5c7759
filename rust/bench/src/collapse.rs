//! Collapse of two layers, real bytes: in memory, and from files to a file.

use crate::folder::Folder;
use crate::image::{up, Image, GRAIN, SECTOR};
use crate::map::{Map, MapMut};
use crate::report::{short, Figure, Report, Timed};
use crate::timing::{best, keep, least};
use crate::{agree, side, Outcome, Setup, SEED};
use compare::rng::Rng;
use std::ffi::OsStr;
use std::fs::{remove_file, write, File};
use std::io;
use std::path::Path;
use std::time::Instant;

const MIB: u64 = 1 << 20;

/// A lower layer that stores every grain and an upper one that stores half of them, at random.
struct Layers {
    capacity: u64,
    images: [Image; 2],
    lower: Vec<u8>,
    upper: Vec<u8>,
}

impl Layers {
    fn new(mib: u64) -> Layers {
        let capacity = mib * MIB / SECTOR;
        let mut rng = Rng::new(SEED, 4);
        let lower = Image::new(capacity, "lower.vmdk", None, |_| true);
        let upper = Image::new(capacity, "upper.vmdk", Some("lower.vmdk"), |_| {
            rng.one_in(2)
        });
        Layers {
            capacity,
            lower: lower.filled(&mut Rng::new(SEED, 5)),
            upper: upper.filled(&mut Rng::new(SEED, 6)),
            images: [lower, upper],
        }
    }

    /// The grains of the result, in order.
    fn grains(&self) -> Vec<&[u8]> {
        let [lower, upper] = &self.images;
        let grain = |grain| {
            let above = upper.grain(&self.upper, grain);
            above.or_else(|| lower.grain(&self.lower, grain))
        };
        (0..up(self.capacity, GRAIN)).filter_map(grain).collect()
    }
}

/// The result's size in MiB: a GiB where memory allows for five times that, layers, results and files together.
pub fn size(setup: &Setup) -> u64 {
    let meminfo = std::fs::read_to_string("/proc/meminfo").unwrap_or_default();
    let free = meminfo.lines().find_map(|line| {
        let value = line.strip_prefix("MemAvailable:")?;
        value.trim().strip_suffix(" kB")?.parse::<u64>().ok()
    });
    match free.unwrap_or(0) / 1024 {
        _ if setup.quick => 32,
        free if free >= 8 * 1024 => 1024,
        free if free >= 4 * 1024 => 512,
        _ => 128,
    }
}

pub fn measure(setup: &Setup, report: &mut Report) -> Outcome {
    setup.progress("collapse, in memory");
    let mib = size(setup);
    let layers = Layers::new(mib);
    let length = in_memory(setup, mib, &layers, report)?;
    setup.progress("collapse, from files to a file");
    in_files(setup, mib, layers, length, report)
}

/// Gives the result's length.
fn in_memory(
    setup: &Setup,
    mib: u64,
    layers: &Layers,
    report: &mut Report,
) -> Result<usize, Box<dyn std::error::Error>> {
    let (lower, upper) = (&layers.lower, &layers.upper);
    // Written once before: memory that the system hands over only now would count as the call's.
    let mut out = vec![1; lower.len()];
    let expected = plain::collapse(lower, upper, out.len()).map_err(|r| format!("{r:?}"))?;
    let length = expected.len();
    let written = side::collapse(lower, upper, &mut out);
    agree(
        "collapse",
        &(written.number, written.length),
        &(0, length as u64),
    )?;
    agree("collapse", &(out[..length] == expected), &true)?;
    drop(expected);

    let ours = best(setup.rounds, || side::collapse(lower, upper, &mut out));
    let label = format!("two layers, {mib} MiB result, half of it from each, in memory");
    report.measure("collapse", &label, &Ok(Figure::whole(ours)));
    let time = best(setup.rounds, || {
        out[..length].copy_from_slice(&lower[..length]);
        keep(&out.as_ptr());
    });
    report.against("memcpy of the result's length", &Ok(Figure::whole(time)));
    let grains = layers.grains();
    let time = best(setup.rounds, || {
        for (to, grain) in out.chunks_exact_mut(grains[0].len()).zip(&grains) {
            to.copy_from_slice(grain);
        }
        keep(&out.as_ptr());
    });
    report.against(
        "memcpy of the same grains, one by one",
        &Ok(Figure::whole(time)),
    );
    let time = best(setup.rounds, || {
        plain::over(plain::collapse(lower, upper, out.len()), &mut out)
    });
    report.against("plain", &Ok(Figure::whole(time)));

    let checks =
        best(setup.rounds, || side::check(lower)) + best(setup.rounds, || side::check(upper));
    report.note(format!(
        "Collapse, {mib} MiB: its two checks take {} alone, {} % of its time.",
        Figure::whole(checks),
        short(100.0 * checks.as_secs_f64() / ours.as_secs_f64())
    ));
    Ok(length)
}

fn in_files(
    setup: &Setup,
    mib: u64,
    layers: Layers,
    length: usize,
    report: &mut Report,
) -> Outcome {
    // Memory where there is a file system of it: a disk's speed is not what is asked for.
    let (place, folder) = match store(Path::new("/dev/shm"), &layers, length) {
        Ok(folder) => ("/dev/shm", folder),
        Err(_) => (
            "the folder for temporary files",
            store(&std::env::temp_dir(), &layers, length)?,
        ),
    };
    if setup.qemu.start().is_ok() {
        same_disk(setup, &layers, &folder)?;
    }
    drop(layers);
    let [lower, upper, out] =
        ["lower.vmdk", "upper.vmdk", "out.vmdk"].map(|name| folder.path(name));
    let fresh = || {
        // Not there in the first round.
        let _ = remove_file(&out);
    };
    let ours = || -> io::Result<_> {
        fresh();
        let start = Instant::now();
        let lower = Map::new(&File::open(&lower)?)?;
        let upper = Map::new(&File::open(&upper)?)?;
        let mut out = MapMut::new(&folder.create("out.vmdk", length as u64)?)?;
        keep(&side::collapse(&lower, &upper, &mut out));
        drop((lower, upper, out));
        Ok(start.elapsed())
    };
    let timed: Timed = Ok(Figure::whole(least(setup.rounds, ours)?));
    let label = format!("the same, {mib} MiB, mapped files to a new mapped file, on {place}");
    report.measure("collapse", &label, &timed);
    let [convert, to, format] = ["convert", "-O", "vmdk"].map(OsStr::new);
    let arguments = [convert, to, format, upper.as_os_str(), out.as_os_str()];
    let qemu = setup.qemu.best(&arguments, fresh);
    report.against("`qemu-img convert`, whole process", &qemu);
    Ok(())
}

/// qemu-img has to find the same disk in the two files, or else its time would be one of other work.
fn same_disk(setup: &Setup, layers: &Layers, folder: &Folder) -> Outcome {
    let (upper, raw) = (folder.path("upper.vmdk"), folder.path("raw"));
    let [convert, to, format] = ["convert", "-O", "raw"].map(OsStr::new);
    let arguments = [convert, to, format, upper.as_os_str(), raw.as_os_str()];
    setup.qemu.best(&arguments, || {})?;
    let disk = Map::new(&File::open(&raw)?)?;
    let grains = layers.grains();
    let same = disk.chunks(grains[0].len()).eq(grains);
    remove_file(&raw)?;
    agree("qemu-img convert", &same, &true)
}

/// The layers as files in a new folder with room for a result.
fn store(parent: &Path, layers: &Layers, length: usize) -> io::Result<Folder> {
    let folder = Folder::new(parent)?;
    write(folder.path("lower.vmdk"), &layers.lower)?;
    write(folder.path("upper.vmdk"), &layers.upper)?;
    folder.has_room(length as u64 + 16 * MIB)?;
    Ok(folder)
}
