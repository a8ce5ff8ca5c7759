use anhkhovet::{chain, Located, Source};
use std::error::Error;

fn main() -> Result<(), Box<dyn Error>> {
    let base = std::fs::read("../../samples/tool-base.vmdk")?;
    let upper = std::fs::read("../../samples/tool-middle.vmdk")?;
    let layers = [&base[..], &upper[..]].concat();
    let lengths = [base.len() as u64, upper.len() as u64];

    let stored = |layer, sector| Located {
        layer,
        source: Source::Stored { sector },
    };
    assert_eq!(chain(&layers, &lengths, 2)?, stored(0, 130));
    assert_eq!(chain(&layers, &lengths, 130)?, stored(1, 130));

    // The lengths have to add up.
    let refused = chain(&layers, &lengths[..1], 2).unwrap_err();
    assert_eq!((refused.refusal.number, refused.layer), (24, 0));
    Ok(())
}
