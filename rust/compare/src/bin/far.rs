//! `far [COUNT] [SEED] [CASE]`: the comparison on images of over 4 GiB, of which a few pages are touched.
//!
//! Needs that much address space and a system that hands out memory when it is touched; a few MiB are.

use compare::cases::numbers;
use compare::far::{run_far, MOST};
use compare::run::Run;
use compare::side::{tested, Plain};
use compare::tally::Call;
use std::process::exit;

fn main() {
    let [count, seed, first] = numbers("far", 10_000);
    let calls = vec![
        Call::Check,
        Call::CheckIn,
        Call::Profile,
        Call::Lookup,
        Call::Steps,
        Call::Read,
        Call::Frame,
        Call::Survey,
        Call::ToKdmv,
        Call::ToCowd,
        Call::Split,
    ];
    let folder = std::env::temp_dir().join("anhkhovet-differences");
    let mut run = Run::new([tested(), &Plain], calls, folder);
    // Inputs of 4 GiB are not saved: their case is printed, and running it again makes them.
    run.saves = false;
    let mut memory = vec![0; (MOST * 512 + 512) as usize];
    run_far(&mut run, &mut memory, seed, first, count);
    let table = run.tally.to_string();
    // Not every place of the table can be reached here.
    let shown = table.lines().filter(|line| !line.starts_with("never"));
    println!("{}", shown.collect::<Vec<_>>().join("\n"));
    exit(i32::from(run.tally.differences + run.tally.strange > 0));
}
