//! Mistakes of closing, in one that is made anew from the plain side's header and a walk of its own.

mod laid;
pub mod walk;

use compare::side::{Plain, Side};
use plain::Closed;
pub use walk::number;

mistakes! {
    Remade:
    FooterAsked DirectoryToldClosed RedundantClosed HalfDescriptorClosed HalfByCountOnly DescriptorAcrossOverhead
    DescriptorOneMore DescriptorEndWraps DescriptorByF OverheadUnjudged Overhead1 Overhead3Least OverheadPast OverheadFRefused
    RoomBefore41 ByteMore ByteLess
    CutGrainKept SectorMoreThanF LastSectorLeft TablesNotSteppedOver TablesEndIt TableByItsNumber
    DirectoriesEndIt DirectoryByItsNumber DirectoryOfOneSector DirectoryOfEntries Type0Stepped Type3SteppedOver OtherTypesStepped
    TypeByLowByte TypeBeforeSize MarkerOf16 PayloadOnly SizeRoundedDown
    NoMultipleKept PastCapacityKept CapacityRoundedDown FirstOf32Bits SecondGrainTaken LowerGrainTaken NotBelow StopsSkipped
    KeptToTable KeptToLastBlock KeptFromF KeptWithoutOverhead GrainsOfAll
    TablesOfEmptyEntries OneTableOnly TableNotMarked TableMarkerEmpty TableSectorOfMarker TableInPlaceOfGrain GrainAfterMarker
    EntryOfWholeDisk FirstGrainOnly DirectoryMarkerEmpty DirectoryMarkerOfEntries DirectoryShort OldDirectorySector DirectoryAtMarker
    FooterMarkerLeft FooterMarkerOf1 FooterOfZeros FooterClean LastSectorLeftOut NoFooter TailHeld
    SectorsOfWhole LengthInSectors LengthOfWhole WrittenOn21 ByteOnRefusal RestCleared
}

/// Larger disks have long directories.
const MOST: u64 = 512 * 128 * 3;

impl Mistake {
    pub fn close(self, image: &[u8], out: &mut [u8]) -> Closed {
        let number = self.refused(image);
        if number != 0 && number != 41 {
            self.spill(out);
            return refused(number);
        }
        if number == 0 && number_of_grains(image) > MOST {
            return Plain.close(image, out);
        }
        if number == 41 || self.unclosed(image) {
            self.spill(out);
            let short = self == RoomBefore41 && out.len() < 2560;
            return refused(if short { 21 } else { 41 });
        }
        let kept = self.walked(image);
        let tail = self.laid(image, &kept);
        let short = match self {
            ByteMore => out.len() <= tail.len(),
            ByteLess => out.len() + 1 < tail.len(),
            _ => out.len() < tail.len(),
        };
        let written = tail.len().min(out.len());
        if !short || self == WrittenOn21 {
            out[..written].copy_from_slice(&tail[..written]);
        }
        if short {
            self.spill(out);
            return refused(21);
        }
        if self == RestCleared {
            out[written..].fill(0);
        }
        self.told(image, &kept, tail.len() as u64)
    }

    fn told(self, image: &[u8], kept: &walk::Kept, length: u64) -> Closed {
        let whole = image.len() as u64 / 512;
        Closed {
            number: 0,
            place: 0,
            sectors: match self {
                SectorsOfWhole => whole,
                KeptWithoutOverhead => kept.sectors - number(image, 64, 8),
                _ => kept.sectors,
            },
            grains: match self {
                GrainsOfAll => kept.blocks,
                _ => kept.grains.len() as u64,
            },
            length: match self {
                LengthInSectors => length / 512,
                LengthOfWhole => length + kept.sectors * 512,
                _ => length,
            },
        }
    }

    /// What the mistake writes on a refusal.
    fn spill(self, out: &mut [u8]) {
        if let (ByteOnRefusal, Some(byte)) = (self, out.first_mut()) {
            *byte = byte.wrapping_add(1);
        }
    }

    /// 1 to 6 and 43, by the plain side's header.
    fn refused(self, image: &[u8]) -> u64 {
        match Plain.header(image).number {
            7 if self != FooterAsked => 0,
            number => number,
        }
    }

    /// Whether a start whose header is not refused is 41.
    fn unclosed(self, image: &[u8]) -> bool {
        let [first, count, redundant, directory, overhead] =
            [28, 36, 48, 56, 64].map(|at| number(image, at, 8));
        let sectors = image.len() as u64 / 512;
        let at_end = directory == u64::MAX || self == DirectoryToldClosed;
        let least = match self {
            Overhead1 => 1,
            Overhead3Least => 3,
            _ => 2,
        };
        let outside = match self {
            OverheadUnjudged => overhead > sectors.max(1 << 20),
            OverheadPast => overhead < least || overhead > sectors + 1,
            OverheadFRefused => overhead < least || overhead >= sectors,
            _ => overhead < least || overhead > sectors,
        };
        let half = match self {
            HalfDescriptorClosed => false,
            HalfByCountOnly => first == 0 && count != 0,
            _ => (first == 0) != (count == 0),
        };
        let end = u128::from(first) + u128::from(count);
        let past = match self {
            DescriptorAcrossOverhead => first > overhead,
            DescriptorOneMore => end > u128::from(overhead) + 1,
            DescriptorEndWraps => first.wrapping_add(count) > overhead,
            DescriptorByF => end > u128::from(sectors),
            _ => end > u128::from(overhead),
        };
        !at_end || (redundant != 0 && self != RedundantClosed) || outside || half || past
    }
}

fn number_of_grains(image: &[u8]) -> u64 {
    number(image, 12, 8) / number(image, 20, 8).max(1)
}

fn refused(number: u64) -> Closed {
    Closed {
        number,
        ..Closed::default()
    }
}
