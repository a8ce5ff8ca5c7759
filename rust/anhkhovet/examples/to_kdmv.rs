use anhkhovet::{check, lookup, read, to_kdmv, Source};
use std::error::Error;

fn main() -> Result<(), Box<dyn Error>> {
    // Thirteen grains of 8 sectors; grain 0 stands at sector 64, behind the others, and grain 1 is absent.
    let image = std::fs::read("../../samples/cowd-s001.vmdk")?;
    assert_eq!(check(&image).unwrap_err().number, 43);
    let mut out = vec![0; 2 * image.len()];
    let length = to_kdmv(&image, &mut out)?;
    out.truncate(length as usize);
    assert!(out.starts_with(b"KDMV"));

    // Each sector keeps its kind and its bytes: behind header, directory and table grains follow in order.
    assert_eq!(lookup(&out, 0)?, Source::Stored { sector: 8 });
    assert_eq!(lookup(&out, 8)?, Source::Absent);
    assert_eq!(read(&out, 0), &image[64 * 512..65 * 512]);

    // It starts from COWD.
    assert_eq!(to_kdmv(&out, &mut []).unwrap_err().number, 23);
    Ok(())
}
