//! Both moves of a disk whose grains are all stored, real bytes, in memory: from KDMV to COWD, and from that to KDMV.

use crate::collapse::size;
use crate::image::{up, Image, GRAIN, SECTOR};
use crate::report::{short, Figure, Report};
use crate::timing::{best, keep};
use crate::{agree, side, Outcome, Setup, SEED};
use compare::rng::Rng;
use plain::Written;

const MIB: u64 = 1 << 20;

type Call = fn(&[u8], &mut [u8]) -> Written;

/// A call, what it starts from and the grains of that in order.
struct Move<'a> {
    name: &'static str,
    ours: Call,
    plain: Call,
    image: &'a [u8],
    grains: Vec<&'a [u8]>,
}

pub fn measure(setup: &Setup, report: &mut Report) -> Outcome {
    setup.progress("moves, in memory");
    let mib = size(setup) / 2;
    let capacity = mib * MIB / SECTOR;
    let grains = up(capacity, GRAIN);
    let young = Image::new(capacity, "disk.vmdk", None, |_| true);
    let bytes = young.filled(&mut Rng::new(SEED, 8));
    let mut old = vec![1; bytes.len() + MIB as usize];
    let written = plain::to_cowd(&bytes, &mut old);
    agree("to_cowd", &written.number, &0)?;
    old.truncate(written.length as usize);
    let to_cowd = Move {
        name: "move to COWD",
        ours: side::to_cowd,
        plain: plain::to_cowd,
        image: &bytes,
        grains: (0..grains).filter_map(|g| young.grain(&bytes, g)).collect(),
    };
    to_cowd.measure(setup, mib, report)?;
    // Its grains stand at the end, back to back.
    let size = (GRAIN * SECTOR) as usize;
    let first = old.len() - grains as usize * size;
    let to_kdmv = Move {
        name: "move to KDMV",
        ours: side::to_kdmv,
        plain: plain::to_kdmv,
        image: &old,
        grains: old[first..].chunks_exact(size).collect(),
    };
    to_kdmv.measure(setup, mib, report)
}

impl Move<'_> {
    fn measure(&self, setup: &Setup, mib: u64, report: &mut Report) -> Outcome {
        // Written once before: memory that the system hands over only now would count as the call's.
        let mut out = vec![1; self.image.len() + MIB as usize];
        let mut expected = out.clone();
        let [ours, theirs] = [
            (self.ours)(self.image, &mut out),
            (self.plain)(self.image, &mut expected),
        ];
        agree(self.name, &ours, &theirs)?;
        agree(self.name, &(ours.number, out == expected), &(0, true))?;
        drop(expected);

        let time = best(setup.rounds, || (self.ours)(self.image, &mut out));
        let label = format!("{mib} MiB, every grain stored, in memory");
        report.measure(self.name, &label, &Ok(Figure::whole(time)));
        let length = self.image.len().min(ours.length as usize);
        let copied = best(setup.rounds, || {
            out[..length].copy_from_slice(&self.image[..length]);
            keep(&out.as_ptr());
        });
        report.against("memcpy of the result's length", &Ok(Figure::whole(copied)));
        let copied = best(setup.rounds, || {
            for (to, grain) in out.chunks_exact_mut(self.grains[0].len()).zip(&self.grains) {
                to.copy_from_slice(grain);
            }
            keep(&out.as_ptr());
        });
        report.against(
            "memcpy of the same grains, one by one",
            &Ok(Figure::whole(copied)),
        );
        let plain = best(setup.rounds, || (self.plain)(self.image, &mut out));
        report.against("plain", &Ok(Figure::whole(plain)));
        report.note(format!(
            "{}, {mib} MiB: grains are moved at {} of the speed of memcpy of the same grains.",
            self.name,
            short(copied.as_secs_f64() / time.as_secs_f64())
        ));
        Ok(())
    }
}
