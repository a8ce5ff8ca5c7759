//! Request A4: a disk cut into several files. Refusals: the descriptor's, 24, 20, then 39, 43, 45, the image's, 38 of one
//! extent.

use crate::answers::{refusal, Extent, Located, Refusal};
use crate::chain::parts;
use crate::check::accept;
use crate::describe::{find, judge, MOST_EXTENTS};
use crate::line::{NOACCESS, SPARSE, VMFSSPARSE, ZERO};
use crate::lookup::{located, source, Source};
use crate::numbers::{past, whole_sectors};

/// The public call: the descriptor's text, the extents' files end to end in line order, and one length per extent.
pub fn split(text: &[u8], files: &[u8], lengths: &[u64], sector: u64) -> Located {
    let (extents, parts) = match disk(text, files, lengths) {
        Ok(disk) => disk,
        Err(refusal) => return located(Err(refusal), 0),
    };
    let found = find(&extents, sector);
    if found.number != 0 {
        return located(Err(refusal(found.number)), 0);
    }
    let own = found.extent as usize;
    let inside = sector - extents[own].first;
    located(serve(&extents[own], parts[own], inside), found.extent)
}

/// The extents, and each one's file.
fn disk<'a>(
    text: &[u8],
    files: &'a [u8],
    lengths: &[u64],
) -> Result<(Vec<Extent>, Vec<&'a [u8]>), Refusal> {
    let (_, extents) = judge(text, MOST_EXTENTS)?;
    if lengths.len() != extents.len() {
        return Err(refusal(24));
    }
    let parts = parts(files, lengths, extents.len()).ok_or_else(|| refusal(24))?;
    Ok((extents, parts))
}

/// The source of an extent's sector `inside`, counted from the extent's first.
fn serve(extent: &Extent, file: &[u8], inside: u64) -> Result<Source, Refusal> {
    if extent.access == NOACCESS {
        return Err(refusal(39));
    }
    match extent.kind {
        // The line alone decides, whatever its file holds.
        VMFSSPARSE => Err(refusal(43)),
        SPARSE => image(file, extent.sectors, inside),
        ZERO if file.is_empty() => Ok(Source::Zero),
        ZERO => Err(refusal(45)),
        _ if past(extent.offset, extent.sectors, whole_sectors(file)) => Err(refusal(45)),
        _ => Ok(Source::Stored {
            sector: extent.offset + inside,
        }),
    }
}

/// The source in a KDMV image: 45 for COWD's magic, the full check, 38, then the lookup.
fn image(file: &[u8], sectors: u64, inside: u64) -> Result<Source, Refusal> {
    if file.starts_with(b"COWD") {
        return Err(refusal(45));
    }
    if accept(file)?.header.capacity != sectors {
        return Err(refusal(38));
    }
    source(file, inside)
}
