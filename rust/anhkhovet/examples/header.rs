use std::error::Error;

fn main() -> Result<(), Box<dyn Error>> {
    let image = std::fs::read("../../samples/tool-base.vmdk")?;
    let header = anhkhovet::header(&image)?;
    assert_eq!(header.disk.capacity, 2048);

    // The text inside the image, if it lies in the file.
    let from = header.descriptor as usize * 512;
    let length = header.descriptor_sectors as usize * 512;
    let text = &image[from..from + length];
    assert!(text.starts_with(b"# Disk DescriptorFile"));
    Ok(())
}
