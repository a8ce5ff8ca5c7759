use anhkhovet::{frame, lookup, Group, SECTOR};
use std::error::Error;

fn main() -> Result<(), Box<dyn Error>> {
    let image = std::fs::read("../../samples/tool-base.vmdk")?;
    let areas = frame(&image)?;
    assert_eq!((areas[0].group, areas[0].first), (Group::Header, 0));

    // Bytes of which nothing but the frame is the image's have its lookups.
    let mut own = vec![0; image.len()];
    for area in areas {
        let first = (area.first * SECTOR) as usize;
        let part = first..first + (area.sectors * SECTOR) as usize;
        own[part.clone()].copy_from_slice(&image[part]);
    }
    for sector in 0..2048 {
        assert_eq!(lookup(&own, sector)?, lookup(&image, sector)?);
    }
    Ok(())
}
