use anhkhovet::{check_in, words_needed};
use std::error::Error;

fn main() -> Result<(), Box<dyn Error>> {
    let mut image = std::fs::read("../../samples/tool-base.vmdk")?;
    // 384 sectors. A list that is longer serves as well, for one image after the other.
    let mut list = vec![0; words_needed(image.len() as u64) as usize];
    assert_eq!(list.len(), 6);
    let said = check_in(&image, &mut list)?;
    // Header, descriptor, two directories with a table each, and two grains.
    assert_eq!(said.marked, 1 + 20 + 2 * (1 + 4) + 2 * 128);
    assert_eq!(said.disk.capacity, 2048);

    // The second grain on the first one, by both tables: all areas before it were marked.
    for table in [22, 27] {
        image.copy_within(table * 512..table * 512 + 4, table * 512 + 4);
    }
    let refused = check_in(&image, &mut list).unwrap_err();
    assert_eq!((refused.refusal.number, refused.marked), (12, 31 + 128));

    // In a list that is too short nothing is marked.
    let refused = check_in(&image, &mut list[1..]).unwrap_err();
    assert_eq!((refused.refusal.number, refused.marked), (21, 0));
    Ok(())
}
