use anhkhovet::{collapse, normal, profile};
use std::error::Error;

fn main() -> Result<(), Box<dyn Error>> {
    // A normal form of grain size 128 meets the profile.
    let layers = ["tool-base", "tool-middle"].map(|name| format!("../../samples/{name}.vmdk"));
    let mut published = Vec::new();
    for layer in layers {
        let image = std::fs::read(layer)?;
        let mut form = vec![0; 2 * image.len()];
        let length = normal(&image, &mut form)?;
        form.truncate(length as usize);
        let disk = profile(&form)?;
        assert_eq!((disk.capacity, disk.grain_size), (2048, 128));
        // The sample itself has a descriptor and a redundant directory.
        assert_eq!(profile(&image).unwrap_err().number, 42);
        published.push(form);
    }

    // So does the collapse of two of them.
    let mut whole = vec![0; published[0].len() + published[1].len()];
    let length = collapse(&published[0], &published[1], &mut whole)?;
    whole.truncate(length as usize);
    assert!(profile(&whole).is_ok());

    // With a byte more it does not.
    whole.push(0);
    let refused = profile(&whole).unwrap_err();
    assert_eq!((refused.number, refused.place), (42, length));
    assert_eq!(
        refused.to_string(),
        format!("refused 42 at byte {length}: from here on the file is not its own normal form")
    );
    Ok(())
}
