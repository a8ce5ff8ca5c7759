//! The check in a lent list and the plain one, on disks with every grain stored, in order and not: beside the bare bitmap.

use crate::image::{Image, GRAIN};
use crate::map::Map;
use crate::report::{grouped, Figure, Report};
use crate::timing::{best, in_turn, keep};
use crate::{agree, bitmap, side, Outcome, Setup, SEED};
use compare::rng::Rng;
use std::cell::RefCell;

/// Label, capacity, rounds for one of the others: the shorter the times, the more.
type Wanted = (&'static str, u64, u32);
const FULL: [Wanted; 2] = [("40 GiB", 40 << 21, 5), ("1 TiB", 1 << 31, 1)];
const QUICK: [Wanted; 2] = [("64 MiB", 1 << 17, 1), ("5 GiB", 5 << 21, 1)];

pub fn measure(setup: &Setup, report: &mut Report) -> Outcome {
    for (size, capacity, turns) in if setup.quick { QUICK } else { FULL } {
        let image = Image::new(capacity, "marks.vmdk", None, |_| true);
        let label = |order| {
            let entries = grouped(capacity / GRAIN);
            format!("{size}, every grain stored, {order}: {entries} entries")
        };
        let rounds = turns * setup.rounds;
        measure_one(setup, rounds, &image, &label("in order"), report)?;
        let image = image.shuffled(&mut Rng::new(SEED, 2));
        measure_one(setup, rounds, &image, &label("shuffled"), report)?;
    }
    report.note(
        "The list and the lent bitmap are one memory, lent once: clearing it is counted, by the library before and after."
            .to_string(),
    );
    Ok(())
}

fn measure_one(
    setup: &Setup,
    rounds: u32,
    image: &Image,
    label: &str,
    report: &mut Report,
) -> Outcome {
    setup.progress(&format!("marks, {label}"));
    let file = setup.folder.create("marks.vmdk", image.length())?;
    image.save(&file, 0)?;
    let map = Map::new(&file)?;
    let image: &[u8] = &map;
    let list = RefCell::new(vec![u64::MAX; bitmap::words(image)]);
    let marked = || side::check_in(image, &mut list.borrow_mut());
    let lent = || bitmap::check_in(image, &mut list.borrow_mut());
    let told = marked();
    agree(
        "check_in",
        &list.borrow().iter().all(|word| *word == 0),
        &true,
    )?;
    agree(
        "check_in",
        &told,
        &plain::check_in(image, &mut list.borrow_mut()),
    )?;
    let accepted = (told.number == 0).then_some((told.capacity, told.grain_size));
    agree("bitmap", &accepted, &bitmap::check(image))?;
    agree("bitmap", &accepted, &lent())?;

    let times = in_turn(
        rounds,
        [
            &|| keep(&marked()),
            &|| keep(&bitmap::check(image)),
            &|| keep(&lent()),
        ],
    );
    // Last, since it may take many passes: what it is compared with has its rounds by then.
    let mut verdict = None;
    let plain = best(rounds, || verdict = Some(side::check(image)));
    agree("check", &verdict, &Some(plain::check(image)))?;

    let [ours, new, lent] = times.map(|time| Ok(Figure::whole(time)));
    let plain = Ok(Figure::whole(plain));
    report.measure("check in a lent list", label, &ours);
    report.against("Rust, bitmap on the heap, a new one each time", &new);
    report.against("Rust, bitmap lent and cleared each time", &lent);
    report.against("the plain check", &plain);
    report.measure("check", label, &plain);
    report.against("Rust, bitmap on the heap, a new one each time", &new);
    report.against("Rust, bitmap lent and cleared each time", &lent);
    Ok(())
}
