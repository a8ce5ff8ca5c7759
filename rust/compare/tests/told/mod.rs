//! Mistakes that have to be caught in each of several calls.

use crate::tally_until;
use compare::side::Side;
use compare::tally::Call;
use std::cell::RefCell;
use std::fmt::Debug;

/// The plain side with a mistake, and for each answer that it gave for it the call.
pub struct Wrong<M> {
    pub mistake: M,
    given: RefCell<Vec<Call>>,
}

impl<M: Copy + Debug> Wrong<M> {
    /// An answer of a call, which is another one than the plain side's or not.
    pub fn told<T: PartialEq>(&self, call: Call, plain: T, told: T) -> T {
        if plain != told {
            self.given.borrow_mut().push(call);
        }
        told
    }
}

/// Each wrong answer is a difference, and each of the mistake's calls has some, and no other call.
pub fn assert_each_is_caught<M: Copy + Debug>(all: &[(M, &[Call])])
where
    Wrong<M>: Side,
{
    for (mistake, calls) in all {
        let wrong = Wrong {
            mistake: *mistake,
            given: RefCell::default(),
        };
        let all_given = || calls.iter().all(|call| wrong.given.borrow().contains(call));
        // Some cases more than it takes, for the calls that are not to be among them.
        let tally = tally_until(&wrong, |tally| tally.comparisons >= 20_000 && all_given());
        assert!(all_given() && !tally.good(), "{mistake:?}");
        let given = wrong.given.into_inner();
        assert_eq!(tally.differences, given.len() as u64, "{mistake:?}");
        assert!(given.iter().all(|call| calls.contains(call)), "{mistake:?}");
    }
}
