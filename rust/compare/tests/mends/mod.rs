//! Mistakes of mending, in one that is made anew from the plain side's frame and check.

use crate::marks::{areas, mark};
use compare::pairs::{alike_as_text, entry, frame_meets, in_use, other_places, pairs, Change};
use compare::side::{Plain, Side};
use plain::Mended;

mistakes! {
    Remade:
    WrongSide SideIgnored OnlyOneIsRedundant LowestByteOnly
    OneDirectoryBefore8 RoomBefore8 RoomBefore40
    OneDirectoryIsMended PlacesByNumber AreasNotJudged
    NeverChecked CheckedBefore Only11 PastNotJudged MarkersNotJudged OverlapNotJudged
    GrainsOnTables OnDescriptor OnLastSector
    NothingIs40 DirtyIs27 NumberHandedOn PlaceHandedOn
    NothingWritten UnusedCopied AlikeAsText NotListedAsText LastEntryLeft FirstTableOnly LowHalfWritten
    NothingListed OldAndNewSwapped GrainInTable TablesAsTheyStand AllListed RestCleared
    CountInWords RoomInChanges WordMore WordLess
    ChangedOn21 ListedOn21 CountOn21 ChangedOn40 ListedOn40 ByteOnHeader
}

/// A refusal, or 0, with what would be written.
#[derive(Default)]
struct Judged {
    number: u64,
    place: u64,
    image: Vec<u8>,
    changes: Vec<Change>,
}

impl Mistake {
    pub fn mend(self, image: &mut [u8], good: u64, list: &mut [u64]) -> Mended {
        let redundant = match self {
            WrongSide => good == 0,
            SideIgnored => false,
            OnlyOneIsRedundant => good == 1,
            LowestByteOnly => good % 256 != 0,
            _ => good != 0,
        };
        let mut judged = self.judge(image, redundant.into());
        if self.is_short(&judged, list.len()) {
            (judged.number, judged.place) = (21, 0);
        }
        self.write(&judged, image, list);
        let count = judged.changes.len() as u64;
        Mended {
            number: judged.number,
            place: judged.place,
            count: match (self, judged.number) {
                (CountInWords, 0) => 3 * count,
                (CountOn21, 21) | (_, 0) => count,
                _ => 0,
            },
        }
    }

    /// Whether the list is refused, at the mistake's time.
    fn is_short(self, judged: &Judged, room: usize) -> bool {
        let count = judged.changes.len();
        let short = match self {
            RoomInChanges => room < count,
            WordMore => count > 0 && room < 3 * count + 1,
            WordLess => room + 1 < 3 * count,
            _ => room < 3 * count,
        };
        match (self, judged.number) {
            (RoomBefore8, 8) => room == 0,
            (RoomBefore40, 40) | (_, 0) => short,
            _ => false,
        }
    }

    /// What the mistake leaves in the lent image and list.
    fn write(self, judged: &Judged, image: &mut [u8], list: &mut [u64]) {
        let words = judged
            .changes
            .iter()
            .flat_map(|change| self.listed(*change));
        match (self, judged.number) {
            (NothingWritten, _) => {}
            (ChangedOn21, 21) | (ChangedOn40, 40) | (_, 0) => image.copy_from_slice(&judged.image),
            (ByteOnHeader, 3..=8) => image[511] ^= 1,
            _ => {}
        }
        match (self, judged.number) {
            (NothingListed, _) => {}
            (ListedOn21, 21) | (ListedOn40, 40) | (_, 0) => {
                for (word, new) in list.iter_mut().zip(words) {
                    *word = new;
                }
            }
            _ => {}
        }
        if let (RestCleared, 0) = (self, judged.number) {
            list[3 * judged.changes.len()..].fill(0);
        }
    }

    fn listed(self, [grain, old, new]: Change) -> Change {
        match self {
            OldAndNewSwapped => [grain, new, old],
            GrainInTable => [grain % 512, old, new],
            _ => [grain, old, new],
        }
    }

    /// `good` is 0 or 1.
    fn judge(self, image: &[u8], good: u64) -> Judged {
        let framed = Plain.frame(image, &mut vec![0; 3 * 4096]);
        if framed.number != 0 {
            let mut judged = refused(self.headed(framed.number, image), image);
            if judged.number == 8 {
                judged.place = framed.place;
            }
            return judged;
        }
        if image[48..56] == [0; 8] {
            let number = if self == OneDirectoryIsMended { 0 } else { 40 };
            return refused(number, image);
        }
        let mut judged = self.change(image, good);
        let after = Plain.check(&judged.image);
        let zeros = image[4] > 1 && image[8] & 0x4 != 0;
        let alike = other_places(image, zeros || self == PlacesByNumber).is_empty();
        let apart = self == AreasNotJudged || !frame_meets(image);
        let number = match self {
            _ if alike && apart && self.passes(image, good, &judged.image) => 0,
            NumberHandedOn if alike && apart => after.number,
            _ => 40,
        };
        let dirty = Plain.header(image).dirty != 0;
        judged.number = match (self, number) {
            (NothingIs40, 0) if judged.changes.is_empty() => 40,
            (DirtyIs27, 0) if dirty => 27,
            _ => number,
        };
        if self == PlaceHandedOn && number == 40 {
            judged.place = after.place;
        }
        judged
    }

    /// Another number than the header's own.
    fn headed(self, number: u64, image: &[u8]) -> u64 {
        match self {
            OneDirectoryBefore8 if number == 8 && image[48..56] == [0; 8] => 40,
            _ => number,
        }
    }

    /// Whether the changed image is taken for one that the check accepts.
    fn passes(self, image: &[u8], good: u64, changed: &[u8]) -> bool {
        let before = Plain.check(image).number;
        match (self, Plain.check(changed).number) {
            (NeverChecked, _) => true,
            (CheckedBefore, _) | (Only11, 0) => [0, 11].contains(&before),
            (_, 0) => true,
            (PastNotJudged, 9) | (MarkersNotJudged, 10) | (OverlapNotJudged, 12) => true,
            // The tables that are written.
            (GrainsOnTables, 12) => apart_without(changed, 6 - good),
            (OnDescriptor, 12) => apart_without(changed, 2),
            (OnLastSector, 12) => apart_without(changed, 8),
            _ => false,
        }
    }

    /// The image with the good side's entries, and the changes.
    fn change(self, image: &[u8], good: u64) -> Judged {
        let mut judged = refused(0, image);
        let mut pairs = pairs(image, good);
        match self {
            TablesAsTheyStand => pairs.sort_by_key(|pair| pair[2]),
            FirstTableOnly => pairs.truncate(1),
            _ => {}
        }
        let head = Plain.header(image);
        for [index, good, other] in pairs {
            let whole = head.capacity / head.grain_size - 512 * index;
            let used = match self {
                LastEntryLeft => in_use(image, index).min(whole),
                _ => in_use(image, index),
            };
            for cell in 0..used {
                self.change_entry(image, &mut judged, 512 * index + cell, [good, other]);
            }
            if self == UnusedCopied {
                let [from, to] = [good, other].map(|table| table as usize * 512);
                judged.image[to..to + 2048].copy_from_slice(&image[from..from + 2048]);
            }
        }
        judged
    }

    /// One entry, by the good table and the other.
    fn change_entry(self, image: &[u8], judged: &mut Judged, grain: u64, tables: [u64; 2]) {
        let [new, old] = tables.map(|table| entry(image, table, grain % 512));
        let as_text = old != new && alike_as_text(old, new);
        let listed = match self {
            AllListed => true,
            AlikeAsText | NotListedAsText => old != new && !as_text,
            _ => old != new,
        };
        if listed {
            judged.changes.push([grain, old, new]);
        }
        let bytes = match self {
            AlikeAsText if as_text => 0,
            LowHalfWritten => 2,
            _ => 4,
        };
        let at = (tables[1] * 512 + grain % 512 * 4) as usize;
        judged.image[at..at + bytes].copy_from_slice(&new.to_le_bytes()[..bytes]);
    }
}

/// An answer before there is anything to change.
fn refused(number: u64, image: &[u8]) -> Judged {
    Judged {
        number,
        image: image.to_vec(),
        ..Judged::default()
    }
}

/// Whether no two areas of an image but those of one group meet, of one that is refused 12.
fn apart_without(image: &[u8], group: u64) -> bool {
    let mut areas = areas(image);
    areas.retain(|area| area.0 != group);
    let (_, met) = mark(&areas, vec![0; image.len() / 512 / 64 + 1]);
    met == areas.len()
}
