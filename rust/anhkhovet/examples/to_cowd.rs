use anhkhovet::{normal, to_cowd, to_kdmv};
use std::error::Error;

fn main() -> Result<(), Box<dyn Error>> {
    let image = std::fs::read("../../samples/tool-base.vmdk")?;
    let mut old = vec![0; 2 * image.len()];
    let length = to_cowd(&image, &mut old)?;
    old.truncate(length as usize);
    assert!(old.starts_with(b"COWD"));

    // There and back is the normal form.
    let (mut back, mut expected) = (vec![0; 2 * image.len()], vec![0; 2 * image.len()]);
    assert_eq!(to_kdmv(&old, &mut back)?, normal(&image, &mut expected)?);
    assert_eq!(back, expected);

    // COWD has no entry for a grain that is marked as zeros.
    let marked = std::fs::read("../../samples/tool-middle.vmdk")?;
    assert_eq!(to_cowd(&marked, &mut old).unwrap_err().number, 44);
    Ok(())
}
