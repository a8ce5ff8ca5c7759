//! The check of one image, by the one of the library's two that suits the file's length. Their answers are the same.

use crate::own::Own;
use anhkhovet::{Disk, Refusal, SECTOR};

/// Sectors of a window. The plain check may have to go over all entries once for each of the file's, the one with a list never.
const WINDOW: u64 = 8_388_608;

pub fn checked(image: &[u8]) -> Result<Disk, Refusal> {
    with(image, list(image.len() as u64))
}

/// What to lend for a file of so many bytes: nothing where it is one window, or where there is no room.
fn list(length: u64) -> Option<Own> {
    if length / SECTOR <= WINDOW {
        return None;
    }
    Own::whole(8 * anhkhovet::words_needed(length) as usize).ok()
}

fn with(image: &[u8], list: Option<Own>) -> Result<Disk, Refusal> {
    match list {
        Some(mut list) => anhkhovet::check_in(image, list.words_mut())
            .map(|marked| marked.disk)
            .map_err(|refused| refused.refusal),
        None => anhkhovet::check(image),
    }
}

#[cfg(test)]
mod tests {
    use super::*;
    use crate::frame::made;
    use std::collections::BTreeSet;
    use std::path::Path;

    #[test]
    fn a_list_is_lent_for_more_than_one_window() {
        let words = |length| list(length).map(|mut list| list.words_mut().len() as u64);
        let window = SECTOR * WINDOW;
        assert_eq!(words(window + SECTOR - 1), None);
        assert_eq!(words(window + SECTOR), Some(WINDOW / 64 + 1));
        assert_eq!(words(2 * window), Some(WINDOW / 32));
        // No system has room for that.
        assert_eq!(words(u64::MAX), None);
    }

    #[test]
    fn both_checks_answer_alike() {
        let mut met = BTreeSet::new();
        for seed in 0..400 {
            let image = made::image(seed);
            let needed = 8 * anhkhovet::words_needed(image.len() as u64) as usize;
            let lent = with(&image, Own::whole(needed).ok());
            assert_eq!(lent, with(&image, None), "{seed}");
            met.insert(lent.map_or_else(|refusal| refusal.number, |_| 0));
        }
        assert!(
            (8..=12).chain([0, 1]).all(|number| met.contains(&number)),
            "{met:?}"
        );
    }

    #[test]
    fn the_window_is_the_crates() {
        let package = Path::new(env!("CARGO_MANIFEST_DIR"));
        let source = std::fs::read_to_string(package.join("../../crates/overlap/src/lib.rt"));
        assert!(source
            .expect("a crate")
            .contains(&format!("window_meets(image, {WINDOW} * w, ")));
    }
}
