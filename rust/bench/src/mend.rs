//! Mending one directory's tables from the other's, in place: beside the check of the image that comes of it.

use crate::image::Image;
use crate::map::MapMut;
use crate::report::{grouped, Figure, Report};
use crate::timing::{best, keep};
use crate::{agree, side, Outcome, Setup, SEED};
use compare::rng::Rng;
use plain::Mended;
use std::io;
use std::time::{Duration, Instant};

/// Rounds for one of the others.
const TURNS: u32 = 5;
const TABLE: usize = 2048;
const ENTRY: usize = 4;
/// Words of the list for each change.
const CHANGE: usize = 3;
const NAME: &str = "mend.vmdk";

/// Label, capacity: a full disk, and an empty one with all its tables.
type Wanted = [(&'static str, u64); 2];
const FULL: Wanted = [("40 GiB", 40 << 21), ("1 TiB", 1 << 31)];
const QUICK: Wanted = [("64 MiB", 1 << 17), ("4 GiB", 1 << 23)];

/// How the redundant tables are not what the primary ones are.
#[derive(Clone, Copy)]
enum Unlike {
    /// So many entries of each are another's.
    Turned(usize),
    /// They say zeros where the primary ones say absent.
    Zeros,
}

const SIDES: [(&str, u64); 2] = [("primary", 0), ("redundant", 1)];
const TURNED: [Unlike; 3] = [Unlike::Turned(0), Unlike::Turned(2), Unlike::Turned(512)];

pub fn measure(setup: &Setup, report: &mut Report) -> Outcome {
    let [(size, capacity), (long, most)] = if setup.quick { QUICK } else { FULL };
    let full = || Image::copied(capacity, NAME, |_| true);
    let shuffled = full().shuffled(&mut Rng::new(SEED, 3));
    for (order, image) in [("in order", full()), ("shuffled", shuffled)] {
        for (side, good) in SIDES {
            for unlike in TURNED {
                let label = format!("{size}, every grain stored, {order}, the {side} tables good");
                measure_one(setup, (&image, &label), good, unlike, report)?;
            }
        }
    }
    let empty = Image::copied(most, NAME, |_| false);
    for unlike in [Unlike::Turned(0), Unlike::Zeros] {
        let label = format!("{long} disk, empty, all tables there, the primary ones good");
        measure_one(setup, (&empty, &label), 0, unlike, report)?;
    }
    Ok(())
}

fn measure_one(
    setup: &Setup,
    (image, label): (&Image, &str),
    good: u64,
    unlike: Unlike,
    report: &mut Report,
) -> Outcome {
    let mut case = Case::new(setup, image, good, unlike)?;
    let changes = case.changes.len() / CHANGE;
    let [entries, differ] =
        [case.list.len() / CHANGE, changes].map(|number| grouped(number as u64));
    let label = format!("{label}: {entries} entries, {differ} differ");
    setup.progress(&format!("mend, {label}"));
    case.judge(setup)?;
    let rounds = TURNS * setup.rounds;
    let [mend, check] = case.timed(rounds);
    report.measure("mend", &label, &Ok(Figure::whole(mend)));
    report.against("check of the mended image", &Ok(Figure::whole(check)));
    if let Unlike::Zeros = unlike {
        let memset = best(rounds, || case.list[..CHANGE * changes].fill(1));
        report.against("memset of the list of changes", &Ok(Figure::whole(memset)));
    }
    Ok(())
}

/// An image whose sides differ, and what is to come of it.
struct Case {
    map: MapMut,
    good: u64,
    /// Where all tables stand, and what they are before.
    first: usize,
    before: Vec<u8>,
    changes: Vec<u64>,
    list: Vec<u64>,
}

impl Case {
    fn new(setup: &Setup, image: &Image, good: u64, unlike: Unlike) -> io::Result<Case> {
        let file = setup.folder.create(NAME, image.length())?;
        image.save(&file, 0)?;
        let mut map = MapMut::new(&file)?;
        if let Unlike::Zeros = unlike {
            // Version 2 with the flag for it.
            map[4] = 2;
            map[8] |= 4;
        }
        let tables: Vec<(usize, usize)> = image.copies().collect();
        let mut changes = Vec::new();
        for (number, (table, copy)) in tables.iter().enumerate() {
            turn(&mut map[*copy..copy + TABLE], unlike);
            let sides = [table, copy].map(|side| &map[*side..side + TABLE]);
            let [new, old] = if good == 0 {
                sides
            } else {
                [sides[1], sides[0]]
            };
            let grain = number * TABLE / ENTRY;
            changes.extend(listed(grain as u64, old, new));
        }
        let first = tables[0].0;
        Ok(Case {
            good,
            first,
            before: map[first..first + 2 * TABLE * tables.len()].to_vec(),
            map,
            changes,
            list: vec![0; CHANGE * TABLE / ENTRY * tables.len()],
        })
    }

    fn restore(&mut self) {
        let end = self.first + self.before.len();
        self.map[self.first..end].copy_from_slice(&self.before);
    }

    fn mend(&mut self) -> Mended {
        side::mend(&mut self.map, self.good, &mut self.list)
    }

    /// The answer is right: all changes, in order, and an image that is accepted.
    fn judge(&mut self, setup: &Setup) -> Outcome {
        if setup.quick {
            let (mut image, mut list) = (self.map.to_vec(), self.list.clone());
            let told = plain::mend(&mut image, self.good, &mut list);
            agree("mend", &self.mend(), &told)?;
            let same = self.map[..] == image[..] && self.list == list;
            agree("mend", &same, &true)?;
            self.restore();
        }
        let told = self.mend();
        let count = self.changes.len() / CHANGE;
        agree("mend", &(told.number, told.count), &(0, count as u64))?;
        let same = self.list[..CHANGE * count] == self.changes;
        agree("mend", &same, &true)?;
        agree("check", &side::check(&self.map).number, &0)
    }

    /// The least times of mending and of the check of what comes of it, in turn.
    fn timed(&mut self, rounds: u32) -> [Duration; 2] {
        let mut least = [Duration::MAX; 2];
        for _ in 0..rounds {
            self.restore();
            let start = Instant::now();
            keep(&self.mend());
            least[0] = start.elapsed().min(least[0]);
            let start = Instant::now();
            keep(&side::check(&self.map));
            least[1] = start.elapsed().min(least[1]);
        }
        least
    }
}

fn turn(table: &mut [u8], unlike: Unlike) {
    match unlike {
        Unlike::Turned(entries) => {
            for pair in table[..ENTRY * entries].chunks_exact_mut(2 * ENTRY) {
                pair.rotate_left(ENTRY);
            }
        }
        Unlike::Zeros => {
            for entry in table.chunks_exact_mut(ENTRY) {
                entry.copy_from_slice(&1u32.to_le_bytes());
            }
        }
    }
}

/// The changes of one table, whose first entry is that grain's.
fn listed<'a>(grain: u64, old: &'a [u8], new: &'a [u8]) -> impl Iterator<Item = u64> + 'a {
    let entries = old.chunks_exact(ENTRY).zip(new.chunks_exact(ENTRY));
    let differing = (grain..).zip(entries).filter(|(_, (old, new))| old != new);
    differing.flat_map(|(grain, (old, new))| [grain, word(old), word(new)])
}

fn word(entry: &[u8]) -> u64 {
    let bytes = entry.iter().rev();
    bytes.fold(0, |word, byte| word << 8 | u64::from(*byte))
}
