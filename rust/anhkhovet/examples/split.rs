use anhkhovet::{split, Placed, Source};
use std::error::Error;

fn main() -> Result<(), Box<dyn Error>> {
    let text = b"# Disk DescriptorFile
version=1
CID=12345678
parentCID=ffffffff
createType=\"custom\"
RW 2048 SPARSE \"tool-base.vmdk\"
RW 8 ZERO
RW 2 FLAT \"end.raw\" 1";
    let base = std::fs::read("../../samples/tool-base.vmdk")?;
    let files = [&base[..], &[7; 3 * 512]].concat();
    let lengths = [base.len() as u64, 0, 3 * 512];

    let placed = |extent, source| Placed { extent, source };
    let stored = |sector| Source::Stored { sector };
    assert_eq!(split(text, &files, &lengths, 2)?, placed(0, stored(130)));
    assert_eq!(
        split(text, &files, &lengths, 2050)?,
        placed(1, Source::Zero)
    );
    assert_eq!(split(text, &files, &lengths, 2057)?, placed(2, stored(2)));

    // The last file is a byte too short for its line.
    let short = [lengths[0], 0, 3 * 512 - 1];
    let refused = split(text, &files[..files.len() - 1], &short, 2057).unwrap_err();
    assert_eq!((refused.refusal.number, refused.extent), (45, 2));
    Ok(())
}
