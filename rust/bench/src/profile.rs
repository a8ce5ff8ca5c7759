//! The lab profile of images that meet it, beside the check of the same images.

use crate::image::{up, Image, GRAIN, SECTOR};
use crate::machine::page_faults;
use crate::map::Map;
use crate::report::{grouped, Figure, Report};
use crate::timing::{in_turn, keep};
use crate::{agree, side, Outcome, Setup};
use std::fs::File;

/// Label, capacity, whether every grain is stored: the check's sizes.
type Wanted = (&'static str, u64, bool);
const FULL: [Wanted; 3] = [
    ("2 GiB, every grain stored", (1 << 22) - 72 * GRAIN, true),
    ("40 GiB, every grain stored", 40 << 21, true),
    ("1 TiB disk, empty", 1 << 31, false),
];
const QUICK: [Wanted; 3] = [
    ("64 MiB, every grain stored", 1 << 17, true),
    ("5 GiB, every grain stored", 5 << 21, true),
    ("4 GiB disk, empty", 1 << 23, false),
];
const NAME: &str = "profile.vmdk";
const PAGE: u64 = 4096;

pub fn measure(setup: &Setup, report: &mut Report) -> Outcome {
    for wanted in if setup.quick { QUICK } else { FULL } {
        measure_one(setup, wanted, report)?;
    }
    Ok(())
}

fn measure_one(setup: &Setup, (size, capacity, stored): Wanted, report: &mut Report) -> Outcome {
    setup.progress(&format!("profile, {size}"));
    let label = format!("{size}: {} entries", grouped(up(capacity, GRAIN)));
    let image = Image::published(capacity, |_| stored);
    let file = setup.folder.create(NAME, image.length())?;
    image.save(&file, 0)?;
    let faults = touched(&file)?;
    let front = up(image.first_grain() * SECTOR, PAGE);
    report.note(format!(
        "Profile, {size}, in a file mapped just now: {} page faults; header, directory, tables and gap have {} pages, the file {}.",
        grouped(faults),
        grouped(front),
        grouped(up(image.length(), PAGE))
    ));

    let map = Map::new(&file)?;
    let image: &[u8] = &map;
    // The plain side lays a normal form down: it is asked of small ones in the comparison.
    agree("profile", &side::profile(image), &side::check(image))?;
    agree("profile", &side::profile(image).number, &0)?;
    let [ours, check] = in_turn(
        3 * setup.rounds,
        [&|| keep(&side::profile(image)), &|| {
            keep(&side::check(image))
        }],
    );
    report.measure("profile", &label, &Ok(Figure::whole(ours)));
    report.against("the plain check", &Ok(Figure::whole(check)));
    Ok(())
}

/// The pages that a profile touches in a file that was mapped just now: were grains read, there would be more of them than the
/// front has.
fn touched(file: &File) -> std::io::Result<u64> {
    // The check's marks on the stack are touched before.
    keep(&side::profile(&Map::new(file)?));
    let map = Map::scattered(file)?;
    let before = page_faults()?;
    keep(&side::profile(&map));
    Ok(page_faults()? - before)
}
