//! Which numbers a call can give.

use crate::answers::REFUSE_COWD;
use crate::tally::Call::{self, *};

/// The refusals of documents 01 and 02, with the calls that can give them, a survey in its rows too; 37 is the program's own.
pub fn gives(number: u64, call: Call) -> bool {
    if number == 43 {
        return REFUSE_COWD.contains(&call);
    }
    match call {
        Check => (1..=12).contains(&number),
        CheckIn => (1..=12).contains(&number) || number == 21,
        Profile => (1..=12).contains(&number) || [23, 27, 42, 47].contains(&number),
        Header => (1..=7).contains(&number),
        Lookup | Steps => (1..=10).contains(&number) || number == 20,
        Chain => (1..=10).contains(&number) || [20, 22, 24].contains(&number),
        Read => false,
        Frame => (1..=8).contains(&number) || number == 21,
        Survey => (1..=12).contains(&number) || [21, 24].contains(&number),
        Mend => (1..=8).contains(&number) || [21, 40].contains(&number),
        Normal => (1..=12).contains(&number) || [21, 23, 27].contains(&number),
        Collapse => (1..=12).contains(&number) || [21, 22, 23, 27].contains(&number),
        ToKdmv | ToCowd => (1..=12).contains(&number) || [21, 23, 27, 44].contains(&number),
        Close => (1..=6).contains(&number) || [21, 41].contains(&number),
        Descriptor => (30..=36).contains(&number) || number == 21,
        Find => number == 20,
        Split => {
            let own = (1..=12).contains(&number) || [38, 39, 45].contains(&number);
            own || (30..=36).contains(&number) || [20, 24].contains(&number)
        }
    }
}
