//! The full check on the files of its issue.

use crate::image::{up, Image, GRAIN, SECTOR};
use crate::map::Map;
use crate::report::{grouped, Figure, Report};
use crate::timing::best;
use crate::{agree, bitmap, side, Outcome, Setup};
use std::io;
use std::path::PathBuf;

/// The sectors that the proved check goes over in one pass; it makes one for each such window of the file. The archive does
/// not tell it: a test compares it with the crate's source, from which the archive has to be fresh.
const WINDOW: u64 = 8_388_608;

/// A sparse file, mapped.
pub struct Input {
    label: &'static str,
    /// Name in the folder.
    name: &'static str,
    pub capacity: u64,
    pub path: PathBuf,
    pub map: Map,
}

/// Label, name, capacity, whether every grain is stored. The first fits in 2 GiB of file, tables and all.
type Wanted = (&'static str, &'static str, u64, bool);
const FULL: [Wanted; 3] = [
    (
        "2 GiB, every grain stored",
        "2g.vmdk",
        (1 << 22) - 72 * GRAIN,
        true,
    ),
    ("40 GiB, every grain stored", "40g.vmdk", 40 << 21, true),
    (
        "1 TiB disk, empty, all tables there",
        "1t.vmdk",
        1 << 31,
        false,
    ),
];
const QUICK: [Wanted; 3] = [
    ("64 MiB, every grain stored", "64m.vmdk", 1 << 17, true),
    ("5 GiB, every grain stored", "5g.vmdk", 5 << 21, true),
    (
        "4 GiB disk, empty, all tables there",
        "4g.vmdk",
        1 << 23,
        false,
    ),
];

/// The three files. The second one is the lookup's too.
pub fn inputs(setup: &Setup) -> io::Result<Vec<Input>> {
    let wanted = if setup.quick { QUICK } else { FULL };
    let make = |(label, name, capacity, stored): Wanted| {
        let image = Image::new(capacity, name, None, |_| stored);
        let file = setup.folder.create(name, image.length())?;
        image.save(&file, 0)?;
        Ok(Input {
            label,
            name,
            capacity,
            path: setup.folder.path(name),
            map: Map::new(&file)?,
        })
    };
    wanted.into_iter().map(make).collect()
}

impl Input {
    pub fn entries(&self) -> u64 {
        up(self.capacity, GRAIN)
    }

    fn windows(&self) -> u64 {
        up(self.map.len() as u64 / SECTOR, WINDOW)
    }

    pub fn label(&self) -> String {
        format!("{}: {} entries", self.label, grouped(self.entries()))
    }
}

pub fn measure(setup: &Setup, inputs: &[Input], report: &mut Report) -> Outcome {
    for input in inputs {
        setup.progress(&format!("check, {}", input.name));
        measure_one(setup, input, report)?;
    }
    Ok(())
}

fn measure_one(setup: &Setup, input: &Input, report: &mut Report) -> Outcome {
    let image: &[u8] = &input.map;
    let verdict = side::check(image);
    let accepted = (verdict.number == 0).then_some((verdict.capacity, verdict.grain_size));
    agree("check", &verdict, &plain::check(image))?;
    agree("check", &accepted, &Some((input.capacity, GRAIN)))?;
    agree("bitmap", &accepted, &bitmap::check(image))?;

    let time = best(setup.rounds, || side::check(image));
    let windows = input.windows();
    let label = match windows {
        1 => format!("{}, 1 window", input.label()),
        _ => format!("{}, {windows} windows", input.label()),
    };
    report.measure("check", &label, &Ok(Figure::whole(time)));
    let plain = best(setup.rounds, || plain::check(image));
    report.against("plain", &Ok(Figure::whole(plain)));
    let heap = best(setup.rounds, || bitmap::check(image));
    report.against("Rust, bitmap on the heap", &Ok(Figure::whole(heap)));
    let path = input.path.as_os_str();
    let qemu = setup.qemu.best(&["check".as_ref(), path], || {});
    report.against("`qemu-img check`, whole process", &qemu);
    if windows > 1 {
        let each = Figure::each(time, input.entries() * windows, " an entry and window");
        report.note(format!(
            "Check, {}: {each}; a window is {} sectors.",
            input.label,
            grouped(WINDOW)
        ));
    }
    Ok(())
}

#[test]
fn the_window_is_the_crates() -> io::Result<()> {
    let package = std::path::Path::new(env!("CARGO_MANIFEST_DIR"));
    let source = std::fs::read_to_string(package.join("../../crates/overlap/src/lib.rt"))?;
    assert!(source.contains(&format!("window_meets(image, {WINDOW} * w, ")));
    Ok(())
}
