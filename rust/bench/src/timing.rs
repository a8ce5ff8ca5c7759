//! Taking times: several rounds, the best counts.

use std::arch::asm;
use std::time::{Duration, Instant};

/// No further round begins once this much time is spent, so that a slow rival gets fewer rounds and not minutes.
const PATIENCE: Duration = Duration::from_secs(4);

/// The least of the times that `measure` takes itself, over at most `rounds` rounds and at least one.
pub fn least<E>(
    rounds: u32,
    mut measure: impl FnMut() -> Result<Duration, E>,
) -> Result<Duration, E> {
    let begun = Instant::now();
    let mut least = measure()?;
    for _ in 1..rounds {
        if begun.elapsed() > PATIENCE {
            break;
        }
        least = least.min(measure()?);
    }
    Ok(least)
}

/// The least time of a call.
pub fn best<T>(rounds: u32, mut call: impl FnMut() -> T) -> Duration {
    let measured = least(rounds, || {
        let start = Instant::now();
        let answer = call();
        keep(&answer);
        Ok::<_, std::convert::Infallible>(start.elapsed())
    });
    match measured {
        Ok(time) => time,
        Err(never) => match never {},
    }
}

/// The least time of each of some calls that take turns, so that what else the machine does falls on all alike.
pub fn in_turn<const N: usize>(rounds: u32, calls: [&dyn Fn(); N]) -> [Duration; N] {
    let mut least = [Duration::MAX; N];
    for _ in 0..rounds {
        for (call, least) in calls.iter().zip(&mut least) {
            let start = Instant::now();
            call();
            *least = start.elapsed().min(*least);
        }
    }
    least
}

/// The compiler has to take `value` for looked at, so that what led to it is not left out. std's black_box came with Rust 1.66.
pub fn keep<T>(value: &T) {
    // SAFETY: no instruction; that memory may be read is all the compiler is told.
    unsafe { asm!("/* {0} */", in(reg) value, options(nostack, preserves_flags, readonly)) }
}

/// The compiler has to take `value` for changed, so that a loop over it goes on step by step.
pub fn opaque(mut value: u64) -> u64 {
    // SAFETY: no instruction; the register keeps its content.
    unsafe { asm!("/* {0} */", inout(reg) value, options(nostack, preserves_flags, nomem)) }
    value
}

#[test]
fn the_least_counts() {
    let mut times = [5, 2, 9].iter().map(|ms| Duration::from_millis(*ms));
    let measured = least(3, || times.next().ok_or(()));
    assert_eq!(measured, Ok(Duration::from_millis(2)));
    assert_eq!(opaque(7), 7);
    assert!(best(2, || 1) < Duration::from_secs(1));
    let calls = std::cell::Cell::new(0);
    let [first, second] = in_turn(3, [&|| calls.set(calls.get() + 1), &|| ()]);
    assert!(first < Duration::from_secs(1) && second < Duration::from_secs(1));
    assert_eq!(calls.get(), 3);
}
