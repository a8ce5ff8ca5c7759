//! What is stored for the program crates: an input made from a seed, and the outputs that the programs must print, as the plain
//! implementation has them; of one example both are literal bytes. Nothing here calls the proved library.

pub mod cases;
mod checks;
mod input;
mod numbers;
pub mod stored;
