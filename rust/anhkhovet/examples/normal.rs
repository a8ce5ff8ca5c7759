use std::error::Error;

fn main() -> Result<(), Box<dyn Error>> {
    let image = std::fs::read("../../samples/tool-middle.vmdk")?;
    let mut out = vec![0; 2 * image.len()];
    let length = anhkhovet::normal(&image, &mut out)?;
    out.truncate(length as usize);

    // It is its own normal form.
    let mut again = vec![0; out.len()];
    assert_eq!(anhkhovet::normal(&out, &mut again)?, length);
    assert_eq!(again, out);

    let short = anhkhovet::normal(&image, &mut out[1..]).unwrap_err();
    assert_eq!(short.number, 21);
    Ok(())
}
