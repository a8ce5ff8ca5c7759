//! Compares two implementations of document 01 on generated inputs, call by call.

mod answers;
pub mod cases;
pub mod cowd;
mod dirty;
mod disks;
pub mod far;
mod frames;
mod image;
mod lists;
pub mod marks;
pub mod mends;
pub mod moves;
mod ones;
pub mod pairs;
pub mod places;
pub mod profiles;
mod refusals;
pub mod rng;
pub mod run;
mod sectors;
pub mod side;
mod splits;
pub mod starts;
pub mod steps;
mod surveys;
pub mod tally;
mod text;

#[cfg(test)]
mod tests;
