//! Closing streams that broke off, mapped files: as many grains with small payloads and with large ones, which nobody reads.

use crate::image::{GRAIN, SECTOR};
use crate::report::{grouped, short, Figure, Report};
use crate::timing::{best, keep};
use crate::{agree, side, Outcome, Setup};
use std::time::Duration;

/// Of grains, where it is no quick run: 64 KiB each, as they are unpacked.
const GIB: u64 = 1 << 30;

/// Bytes of a payload in a sector of its own, and in as many as an unpacked grain takes.
const SMALL: u64 = 500;
const LARGE: u64 = GRAIN * SECTOR - 12;

/// A start of a stream: grains back to back from sector 2 on, and no end. Payloads are zeros that were never written.
fn start(grains: u64, size: u64) -> Vec<u8> {
    let sectors = (12 + size) / SECTOR;
    let mut image = vec![0; ((2 + grains * sectors) * SECTOR) as usize];
    image[..4].copy_from_slice(b"KDMV");
    let mut put = |at: u64, length: usize, number: u64| {
        let at = at as usize;
        image[at..at + length].copy_from_slice(&number.to_le_bytes()[..length]);
    };
    let header = [(4, 3), (8, 0x30000), (12, grains * GRAIN), (20, GRAIN)];
    for (at, number) in header.into_iter().chain([(44, 512), (64, 2), (77, 1)]) {
        put(at, if at == 77 { 2 } else { 4 }, number);
    }
    put(56, 8, u64::MAX);
    for grain in 0..grains {
        let at = (2 + grain * sectors) * SECTOR;
        put(at, 8, grain * GRAIN);
        put(at + 8, 4, size);
    }
    image
}

pub fn measure(setup: &Setup, report: &mut Report) -> Outcome {
    setup.progress("closing, in memory");
    let grains = if setup.quick { GIB / 64 } else { GIB } / (GRAIN * SECTOR);
    let mut times = Vec::new();
    for (size, name) in [(SMALL, "one sector"), (LARGE, "128 sectors")] {
        let label = format!("{} grains of {name} each, in memory", grouped(grains));
        times.push(one(setup, &start(grains, size), grains, &label, report)?);
    }
    let ratio = times[1].as_secs_f64() / times[0].as_secs_f64();
    report.note(format!(
        "Closing, {} grains: with 128 times the bytes it takes {} of the time.",
        grouped(grains),
        short(ratio)
    ));
    Ok(())
}

fn one(
    setup: &Setup,
    image: &[u8],
    grains: u64,
    label: &str,
    report: &mut Report,
) -> Result<Duration, Box<dyn std::error::Error>> {
    // Tables, the directory, and what stands beside them.
    let room = (5 * (grains / 512 + 1) + grains / 65_536 + 6) * SECTOR;
    let mut out = vec![1; room as usize];
    let mut expected = out.clone();
    let closed = side::close(image, &mut out);
    agree("close", &closed, &plain::close(image, &mut expected))?;
    agree("close", &(closed.grains, out == expected), &(grains, true))?;
    let time = best(setup.rounds, || side::close(image, &mut out));
    report.measure("close", label, &Ok(Figure::each(time, grains, " a grain")));
    let plain = best(setup.rounds, || {
        keep(&plain::close(image, &mut out));
    });
    report.against("plain", &Ok(Figure::each(plain, grains, " a grain")));
    Ok(time)
}
