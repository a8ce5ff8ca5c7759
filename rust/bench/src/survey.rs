//! The survey of many images, beside the check of each of them, and of an empty disk.

use crate::check::Input;
use crate::image::{Image, GRAIN};
use crate::map::Map;
use crate::report::{grouped, Figure, Report, Timed};
use crate::timing::{in_turn, keep};
use crate::{agree, side, Outcome, Setup};
use plain::Surveyed;
use std::fs::File;
use std::io;

/// The aim is a ratio of two times that are nearly alike: more rounds than for others.
const TURNS: u32 = 3;

/// Images end to end.
struct Images {
    map: Map,
    lengths: Vec<u64>,
}

type Call = fn(&[u8], &[u64], &mut [u64], &mut [u64]) -> Surveyed;

impl Images {
    /// The same image many times, in one sparse file.
    fn new(setup: &Setup, image: &Image, count: u64) -> io::Result<Images> {
        let length = image.length();
        let file = setup.folder.create("survey", count * length)?;
        (0..count).try_for_each(|number| image.save(&file, number * length))?;
        Ok(Images {
            map: Map::new(&file)?,
            lengths: vec![length; count as usize],
        })
    }

    /// All of the call's answer: rows, tally, totals.
    fn told(&self, call: Call) -> (Vec<u64>, [u64; 63], Surveyed) {
        let mut rows = vec![0; 6 * self.lengths.len()];
        let mut tally = [0; 63];
        let totals = call(&self.map, &self.lengths, &mut rows, &mut tally);
        (rows, tally, totals)
    }

    /// What it comes to, once both sides say the same.
    fn agreed(&self) -> Result<Surveyed, Box<dyn std::error::Error>> {
        let told = self.told(side::survey);
        agree("survey", &told, &self.told(plain::survey))?;
        Ok(told.2)
    }

    /// How many the library's check refuses, image by image.
    fn refused(&self) -> usize {
        let refused = |image: &&[u8]| side::check(image).number != 0;
        let images = self.map.chunks(self.lengths[0] as usize);
        images.filter(refused).count()
    }

    /// The times of the survey, of the check of each image, and of the plain survey.
    fn times(&self, setup: &Setup) -> [Timed; 3] {
        let times = in_turn(
            TURNS * setup.rounds,
            [
                &|| keep(&self.told(side::survey)),
                &|| keep(&self.refused()),
                &|| keep(&self.told(plain::survey)),
            ],
        );
        times.map(|time| Ok(Figure::whole(time)))
    }
}

/// `tables` is an empty disk with all of its tables.
pub fn measure(setup: &Setup, tables: &Input, report: &mut Report) -> Outcome {
    setup.progress("survey");
    full(setup, report)?;
    empty(setup, tables, report)
}

/// Every grain stored. The images fit in 2 GiB each, tables and all.
fn full(setup: &Setup, report: &mut Report) -> Outcome {
    let (count, capacity, size) = if setup.quick {
        (10, 1 << 17, "64 MiB")
    } else {
        (300, (1 << 22) - 72 * GRAIN, "2 GiB")
    };
    let image = Image::new(capacity, "full.vmdk", None, |_| true);
    let images = Images::new(setup, &image, count)?;
    let stored = images.agreed()?.stored;
    agree("survey", &stored, &(count * capacity / GRAIN))?;
    let label = format!(
        "{count} images of {size}, every grain stored: {} entries",
        grouped(stored)
    );
    let [ours, checked, plain] = images.times(setup);
    report.measure("survey", &label, &ours);
    report.against("the library's check, image by image", &checked);
    report.against("plain", &plain);
    Ok(())
}

/// Nothing stored and no table.
fn empty(setup: &Setup, tables: &Input, report: &mut Report) -> Outcome {
    let image = Image::new(tables.capacity, "empty.vmdk", None, |_| false);
    let images = Images::new(setup, &image.without_tables(), 1)?;
    agree("survey", &images.agreed()?.absent, &tables.entries())?;
    let size = if setup.quick { "4 GiB" } else { "1 TiB" };
    let label = format!(
        "{size} disk, empty, no tables: {} grains",
        grouped(tables.entries())
    );
    let [ours, checked, plain] = images.times(setup);
    report.measure("survey", &label, &ours);
    report.against("the library's check", &checked);
    let with_tables = Images {
        lengths: vec![tables.map.len() as u64],
        map: Map::new(&File::open(&tables.path)?)?,
    };
    let [walked, ..] = with_tables.times(setup);
    report.against("the same disk with all its tables", &walked);
    report.against("plain", &plain);
    Ok(())
}
