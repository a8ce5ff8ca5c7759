use anhkhovet::{steps, Source, Step};
use std::error::Error;

fn main() -> Result<(), Box<dyn Error>> {
    let image = std::fs::read("../../samples/tool-base.vmdk")?;
    let steps = steps(&image, 2)?;
    let directory = steps.way.directory.ok_or("a directory")?;
    let table = steps.way.table.ok_or("a table")?;
    // Entry 0 of the directory names the table's sector, and entry 0 of the table the grain's.
    assert_eq!(table.at, 512 * directory.entry);
    assert_eq!(
        steps.source,
        Source::Stored {
            sector: table.entry + 2
        }
    );
    let bytes = &image[directory.at as usize..][..4];
    assert_eq!(directory.entry.to_le_bytes()[..4], *bytes);
    assert_eq!(
        table,
        Step {
            at: table.at,
            entry: 128
        }
    );
    Ok(())
}
