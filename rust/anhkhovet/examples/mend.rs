use anhkhovet::{changes, check, mend, Change, Side, CHANGE};
use std::error::Error;

fn main() -> Result<(), Box<dyn Error>> {
    let sound = std::fs::read("../../samples/tool-base.vmdk")?;
    // The redundant table's first entry, at sector 22, is 128. It differs behind a zero byte: 80 00 01 00 for 80 00 00 00.
    let mut damaged = sound.clone();
    damaged[22 * 512 + 2] = 1;
    assert_eq!(check(&damaged).unwrap_err().number, 11);

    let mut image = damaged.clone();
    let mut list = [0; 10 * CHANGE];
    let count = mend(&mut image, Side::Primary, &mut list)?;
    let changed = Change {
        grain: 0,
        old: 128 + (1 << 16),
        new: 128,
    };
    assert_eq!(changes(&list, count).collect::<Vec<_>>(), [changed]);
    assert_eq!(image, sound);

    // With the redundant side for the good one the grain would run past the end of the file, so nothing is written.
    let mut image = damaged.clone();
    let refused = mend(&mut image, Side::Redundant, &mut list).unwrap_err();
    assert_eq!(refused.number, 40);
    assert_eq!(image, damaged);
    Ok(())
}
