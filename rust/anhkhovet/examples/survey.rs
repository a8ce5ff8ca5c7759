use anhkhovet::{survey, Tallied};
use std::error::Error;

fn main() -> Result<(), Box<dyn Error>> {
    let image = std::fs::read("../../samples/tool-base.vmdk")?;
    // Without its last sector the last grain is not whole.
    let cut = &image[..image.len() - 512];
    let images = [&image[..], cut].concat();
    let said = survey(&images, &[image.len() as u64, cut.len() as u64])?;

    let counts = said.rows[0]?;
    assert_eq!((counts.stored, counts.grains()), (2, 16));
    assert_eq!(
        said.rows[1].unwrap_err().to_string(),
        "refused 9 at grain 1: the grain runs past the end of the file"
    );

    // The refused image is no part of the totals.
    assert_eq!(said.totals, counts);
    let once = Tallied {
        number: 9,
        images: 1,
    };
    assert_eq!(said.tally, [once]);
    Ok(())
}
