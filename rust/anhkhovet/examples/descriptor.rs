use anhkhovet::{find, ExtentKind};
use std::error::Error;

fn main() -> Result<(), Box<dyn Error>> {
    let text = std::fs::read("../../samples/two-gb-sparse-data.vmdk")?;
    let said = anhkhovet::descriptor(&text)?;
    assert_eq!(&text[said.create_type.clone()], b"twoGbMaxExtentSparse");

    let number = find(&said.extents, 4_194_304)?;
    let extent = &said.extents[number];
    assert_eq!((number, extent.sectors), (1, 200));
    assert_eq!(extent.kind, ExtentKind::Sparse);
    assert_eq!(&text[extent.name.clone()], b"two-gb-sparse-data-s002.vmdk");
    Ok(())
}
