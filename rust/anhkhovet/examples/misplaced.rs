use anhkhovet::{check, lookup, MisplacedPart, Source};

fn main() -> std::io::Result<()> {
    let mut image = std::fs::read("../../samples/tool-base.vmdk")?;

    // From byte 48 on the header has the redundant directory's sector: now one past the end.
    image[51] = 1;
    let refused = check(&image).unwrap_err();
    assert_eq!(refused.part(), Some(MisplacedPart::RedundantDirectory));
    assert_eq!(
        refused.to_string(),
        "refused 8: the redundant directory does not lie inside the file"
    );
    // Lookups do without it.
    assert_eq!(lookup(&image, 2), Ok(Source::Stored { sector: 130 }));

    // From byte 56 on it has the directory's, which is named before its copy.
    image[59] = 1;
    let refused = check(&image).unwrap_err();
    assert_eq!(refused.part(), Some(MisplacedPart::Directory));
    assert_eq!(lookup(&image, 2), Err(refused));
    Ok(())
}
