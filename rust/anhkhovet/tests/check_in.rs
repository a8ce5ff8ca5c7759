//! The check in a lent list: the sectors marked, each refusal's list, and its room on both sides of the edge.

mod common;

use anhkhovet::{check, check_in, raw, words_needed, Disk, Marked, MarkedRefusal, Refusal};
use common::image;
use std::fs;

const DISK: Disk = Disk {
    capacity: 200,
    grain_size: 8,
};

/// Header, descriptor, directory and table of the small image.
const FRAME: u64 = 1 + 2 + 1 + 4;

fn refused(number: u64, place: u64, marked: u64) -> Result<Marked, MarkedRefusal> {
    let refusal = Refusal { number, place };
    Err(MarkedRefusal { refusal, marked })
}

/// The small image with grain 0 at another sector, in a file of so many sectors.
fn with(grain: u8, sectors: usize) -> Vec<u8> {
    let mut image = image();
    image[2 * 512] = grain;
    image.resize(sectors * 512, 0);
    image
}

#[test]
fn accepted() {
    let marked = |marked| Ok(Marked { disk: DISK, marked });
    // What the list held does not count, and what is past the word that is needed stays.
    for held in [0, 9, u64::MAX] {
        let mut list = [held; 3];
        assert_eq!(check_in(&image(), &mut list), marked(FRAME + 8));
        assert_eq!(list, [0, held, held]);
        let mut list = [held];
        assert_eq!(check_in(&with(16, 24), &mut list), marked(FRAME + 16));
        assert_eq!(list, [0]);
    }
}

#[test]
fn areas_that_meet() {
    // Grain 0 on the table; grain 2 on the file's first sectors of grain 0; grain 3 on those of grain 2.
    let mut last = with(16, 24);
    last[2 * 512 + 12] = 9;
    for (image, marked) in [
        (with(5, 16), FRAME),
        (with(9, 24), FRAME + 8),
        (last, FRAME + 16),
    ] {
        for held in [0, 9, u64::MAX] {
            let mut list = [held; 3];
            assert_eq!(check_in(&image, &mut list), refused(12, 0, marked));
            assert_eq!(list, [0, held, held]);
        }
    }
    let met = check_in(&with(5, 16), &mut [0]).unwrap_err();
    assert_eq!(
        met.to_string(),
        "refused 12: two areas of the file share a sector (8 sectors were marked before)"
    );
}

#[test]
fn room() {
    for (sectors, needed) in [(16, 1), (63, 1), (64, 1), (65, 2), (128, 2), (129, 3)] {
        for (grain, number) in [(0, 0), (5, 12)] {
            let image = with(grain, sectors);
            let mut list = vec![9; needed + 1];
            let short = check_in(&image, &mut list[..needed - 1]);
            assert_eq!(short, refused(21, 0, 0), "{sectors}");
            assert_eq!(list, vec![9; needed + 1]);
            assert_eq!(raw::check_in(&image, &mut list[..needed]).number, number);
            assert!(list[..needed].iter().all(|word| *word == 0), "{sectors}");
            assert_eq!(list[needed], 9);
        }
        let bytes = sectors as u64 * 512;
        assert_eq!(words_needed(bytes), needed as u64);
        assert_eq!(words_needed(bytes + 511), needed as u64);
    }
    assert_eq!((words_needed(0), words_needed(511)), (0, 0));
    assert_eq!(words_needed(u64::MAX), 1 << 49);
}

#[test]
fn other_refusals_keep_the_list() {
    let mut version = image();
    version[4] = 9;
    let short = image()[..16 * 512 - 1].to_vec();
    for (image, number, place) in [
        (Vec::new(), 1, 0),
        (b"KDMW".to_vec(), 2, 0),
        (version, 3, 0),
        (short, 9, 2),
    ] {
        // Also where the list would be too short.
        for room in [0, 1, 3] {
            let mut list = vec![9; room];
            assert_eq!(check_in(&image, &mut list), refused(number, place, 0));
            assert_eq!(list, vec![9; room]);
        }
    }
}

/// On real images it says what the check says, and never marks more than there is.
#[test]
fn samples() {
    let (mut accepted, mut refused) = (0, 0);
    for entry in fs::read_dir("../../samples").unwrap() {
        let path = entry.unwrap().path();
        if path.extension().map_or(true, |name| name != "vmdk") {
            continue;
        }
        let image = fs::read(&path).unwrap();
        let mut list = vec![u64::MAX; words_needed(image.len() as u64) as usize];
        let found = check_in(&image, &mut list);
        let disk = found.map(|said| said.disk);
        assert_eq!(disk.map_err(|refusal| refusal.refusal), check(&image));
        match found {
            Ok(said) => {
                accepted += 1;
                assert!((1..=image.len() as u64 / 512).contains(&said.marked));
                assert!(list.iter().all(|word| *word == 0), "{}", path.display());
            }
            Err(_) => refused += 1,
        }
    }
    assert!(accepted > 5 && refused > 0, "{accepted} {refused}");
}
