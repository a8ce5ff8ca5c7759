use std::error::Error;

fn main() -> Result<(), Box<dyn Error>> {
    let image = std::fs::read("../../samples/tool-base.vmdk")?;
    assert_eq!(anhkhovet::read_part(&image, 2), 130 * 512..131 * 512);
    assert_eq!(anhkhovet::read(&image, 2), [b'b'; 512]);

    // Absent: there are no bytes, and without a parent it reads as zeros.
    assert!(anhkhovet::read(&image, 256).is_empty());
    Ok(())
}
