use anhkhovet::{check, close, lookup, Source};
use std::error::Error;

fn main() -> Result<(), Box<dyn Error>> {
    // Of the four grains of a stream, the third broke off.
    let stream = std::fs::read("../../samples/vmdkstream.vmdk")?;
    let start = &stream[..133 * 512];
    assert_eq!(check(start).unwrap_err().number, 7);

    let mut tail = vec![0; 8192];
    let closed = close(start, &mut tail)?;
    assert_eq!((closed.sectors, closed.grains), (132, 2));

    // What is kept and the tail are an image, with the grains where they stood.
    let image = [closed.kept(start), &tail[..closed.length as usize]].concat();
    assert_eq!(check(&image), check(&stream));
    assert_eq!(lookup(&image, 128), lookup(&stream, 128));
    assert_eq!(lookup(&image, 640)?, Source::Absent);
    Ok(())
}
