use anhkhovet::{lookup, Source};
use std::error::Error;

fn main() -> Result<(), Box<dyn Error>> {
    let image = std::fs::read("../../samples/tool-middle.vmdk")?;
    assert_eq!(lookup(&image, 0)?, Source::Absent);
    assert_eq!(lookup(&image, 130)?, Source::Stored { sector: 130 });
    assert_eq!(lookup(&image, 256)?, Source::Zero);

    let past = lookup(&image, 2048).unwrap_err();
    assert_eq!(past.number, 20);
    Ok(())
}
