use anhkhovet::{collapse, read};
use std::error::Error;

fn main() -> Result<(), Box<dyn Error>> {
    let lower = std::fs::read("../../samples/tool-base.vmdk")?;
    let upper = std::fs::read("../../samples/tool-middle.vmdk")?;
    let mut out = vec![0; lower.len() + upper.len()];
    let length = collapse(&lower, &upper, &mut out)?;
    out.truncate(length as usize);

    assert_eq!(read(&out, 2), read(&lower, 2));
    assert_eq!(read(&out, 130), read(&upper, 130));
    Ok(())
}
