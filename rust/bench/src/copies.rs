//! The check of disks with a redundant directory: what comparing its tables costs, beside memcmp over the same ones.

use crate::image::{up, Image, GRAIN};
use crate::map::Map;
use crate::report::{grouped, Figure, Report};
use crate::timing::{in_turn, keep};
use crate::{agree, side, Outcome, Setup};
use std::io;

/// Rounds of what is compared by a difference of two times, for one of the others: the shorter the times, the more.
const TURNS: [u32; 2] = [100, 9];

/// Label, capacity, whether every grain is stored.
type Wanted = (&'static str, u64, bool);
const FULL: [Wanted; 2] = [
    ("40 GiB, every grain stored", 40 << 21, true),
    ("1 TiB disk, empty, all tables there", 1 << 31, false),
];
const QUICK: [Wanted; 2] = [
    ("64 MiB, every grain stored", 1 << 17, true),
    ("4 GiB disk, empty, all tables there", 1 << 23, false),
];

pub fn measure(setup: &Setup, report: &mut Report) -> Outcome {
    let wanted = if setup.quick { QUICK } else { FULL };
    for (wanted, turns) in wanted.into_iter().zip(TURNS) {
        setup.progress(&format!("copies, {}", wanted.0));
        measure_one(setup, wanted, turns, report)?;
    }
    Ok(())
}

/// Three files of one image: sound; with another entry for the last grain in the redundant table, which is refused 11 after all
/// was compared; with its last grain past the end, which is refused 9 after all was walked, and nothing compared.
fn measure_one(
    setup: &Setup,
    (label, capacity, stored): Wanted,
    turns: u32,
    report: &mut Report,
) -> Outcome {
    let grains = up(capacity, GRAIN);
    let image = Image::copied(capacity, "copied.vmdk", |_| stored);
    let tables: Vec<(usize, usize)> = image.copies().collect();
    let save = |name: &str, spoilt: Option<bool>| -> io::Result<Map> {
        let file = setup.folder.create(name, image.length())?;
        image.save(&file, 0)?;
        if let Some(copies) = spoilt {
            image.spoil(&file, copies, grains, u32::MAX)?;
        }
        Map::new(&file)
    };
    let sound = save("sound.vmdk", None)?;
    let unlike = save("unlike.vmdk", Some(true))?;
    let past = save("past.vmdk", Some(false))?;
    for (map, number) in [(&sound, 0), (&unlike, 11), (&past, 9)] {
        agree("check", &side::check(map), &plain::check(map))?;
        agree("check", &side::check(map).number, &number)?;
    }
    let differ =
        |&&(table, copy): &&(usize, usize)| sound[table..table + 2048] != sound[copy..copy + 2048];
    agree("memcmp", &tables.iter().filter(differ).count(), &0)?;

    let [ours, plain] = in_turn(
        setup.rounds,
        [&|| keep(&side::check(&sound)), &|| {
            keep(&plain::check(&sound))
        }],
    );
    let [compared, walked, memcmp] = in_turn(
        turns * setup.rounds,
        [
            &|| keep(&side::check(&unlike)),
            &|| keep(&side::check(&past)),
            &|| keep(&tables.iter().filter(differ).count()),
        ],
    );
    let label = format!("{label}: {} entries", grouped(grains));
    report.measure("check, two directories", &label, &Ok(Figure::whole(ours)));
    report.against("plain", &Ok(Figure::whole(plain)));
    let copies = compared.saturating_sub(walked);
    report.measure(
        "of it, comparing copies",
        &label,
        &Ok(Figure::whole(copies)),
    );
    report.against("memcmp, table by table", &Ok(Figure::whole(memcmp)));
    Ok(())
}
