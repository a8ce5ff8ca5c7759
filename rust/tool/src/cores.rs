//! Work on all cores, its results taken in the order of the jobs.

use crate::failure::Failure;
use crate::worker::STACK;
use std::collections::VecDeque;
use std::num::NonZeroUsize;
use std::sync::mpsc::{channel, Receiver, Sender};
use std::sync::Mutex;
use std::thread::{self, Builder, Scope};

/// A job and where its result goes.
type Given<J, D> = (J, Sender<D>);

/// `next` and `take` run here, `work` on threads of its own. Only a few jobs are under way at a time, so that memory is bounded.
pub fn in_order<J: Send, D: Send>(
    mut next: impl FnMut() -> Result<Option<J>, Failure>,
    work: impl Fn(J) -> D + Sync,
    mut take: impl FnMut(D) -> Result<(), Failure>,
) -> Result<(), Failure> {
    let (give, given) = channel();
    let given = Mutex::new(given);
    thread::scope(|scope| {
        // Dropped at the end of this closure, which is what ends the threads.
        let give = give;
        let hands = start(scope, &given, &work);
        let mut waiting = VecDeque::new();
        // How the jobs ended. What was begun before is taken first, so that it is the same on any number of cores.
        let mut end = None;
        loop {
            while end.is_none() && waiting.len() < 2 * hands.max(1) {
                let job = match next() {
                    Ok(Some(job)) => job,
                    ended => {
                        end = Some(ended.map(|_| ()));
                        break;
                    }
                };
                let (answer, result) = channel();
                if hands == 0 {
                    // No thread could be started: the work is done here.
                    let _ = answer.send(work(job));
                } else {
                    let _ = give.send((job, answer));
                }
                waiting.push_back(result);
            }
            match waiting.pop_front() {
                None => return end.unwrap_or(Ok(())),
                // Nothing comes from a thread that panicked, and then the scope does too.
                Some(result) => result.recv().map_or(Ok(()), &mut take)?,
            }
        }
    })
}

/// Starts a thread for each core, and says how many could be started.
fn start<'a, J: Send + 'a, D: Send + 'a>(
    scope: &'a Scope<'a, '_>,
    given: &'a Mutex<Receiver<Given<J, D>>>,
    work: &'a (impl Fn(J) -> D + Sync),
) -> usize {
    let cores = thread::available_parallelism().map_or(1, NonZeroUsize::get);
    let started = |_: &usize| {
        let thread = Builder::new().stack_size(STACK);
        let started = thread.spawn_scoped(scope, move || serve(given, work));
        started.is_ok()
    };
    (0..cores).filter(started).count()
}

fn serve<J, D>(given: &Mutex<Receiver<Given<J, D>>>, work: &impl Fn(J) -> D) {
    let next = || given.lock().ok()?.recv().ok();
    while let Some((job, answer)) = next() {
        // Where nobody waits for the result any more, it is not missed.
        let _ = answer.send(work(job));
    }
}
