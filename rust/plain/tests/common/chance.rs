//! Made-up numbers, the same in each run.

/// A number below `bound`, another one each time.
pub fn next(state: &mut u64, bound: u64) -> u64 {
    *state = state
        .wrapping_mul(6364136223846793005)
        .wrapping_add(1442695040888963407);
    (*state >> 33) % bound
}
