//! `compare [COUNT] [SEED] [CASE]`: compares the proved library with the plain one on COUNT calls (default 100,000).
//!
//! Status 1 on a difference, or where the inputs left a place of the table empty. CASE starts at a reported case.

use compare::cases::{numbers, run_cases};
use compare::run::Run;
use compare::side::{tested, Plain};
use compare::tally::Call;
use std::process::exit;

fn main() {
    let [count, seed, first] = numbers("compare", 100_000);
    let folder = std::env::temp_dir().join("anhkhovet-differences");
    let mut run = Run::new([tested(), &Plain], Call::all(), folder);
    run_cases(&mut run, seed, first, count);
    println!("{}", run.tally);
    exit(i32::from(!run.tally.good()));
}
