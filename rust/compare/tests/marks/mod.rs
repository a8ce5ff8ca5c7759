//! Mistakes of the check in a lent list: another room, order, number or list than the plain side's.

use crate::miscounts::directory;
use compare::side::{Plain, Side};
use plain::{Marked, PACKED, STORED};

#[derive(Clone, Copy, Debug, PartialEq)]
pub enum Mistake {
    /// None: the number is counted anew, sector by sector.
    Recounted,
    MeetingAreaCounted,
    MeetingAreaInPart,
    AllAreasCountedOn12,
    NothingCountedOn12,
    CountedOn11,
    CountedOn21,
    LastGrainShort,
    PlaceForgotten,
    GrainsBeforeTables,
    TableThenItsCopy,
    FooterAfterGrains,
    DescriptorAfterDirectories,
    GrainsAsTheyStand,
    OldBitsBelieved,
    ClearedOn9,
    ClearedOn21,
    KeptOn12,
    MarksLeftOn12,
    MarksLeftOnAcceptance,
    RestCleared,
    RoundedDown,
    TooFewForAMultiple,
    TooFewForOneMore,
    TooManyForAMultiple,
    BytesRoundedUp,
    RoomAfter12,
    RoomBefore11,
    RoomBefore9,
}

use Mistake::*;

pub const ALL: [Mistake; 28] = [
    MeetingAreaCounted,
    MeetingAreaInPart,
    AllAreasCountedOn12,
    NothingCountedOn12,
    CountedOn11,
    CountedOn21,
    LastGrainShort,
    PlaceForgotten,
    GrainsBeforeTables,
    TableThenItsCopy,
    FooterAfterGrains,
    DescriptorAfterDirectories,
    GrainsAsTheyStand,
    OldBitsBelieved,
    ClearedOn9,
    ClearedOn21,
    KeptOn12,
    MarksLeftOn12,
    MarksLeftOnAcceptance,
    RestCleared,
    RoundedDown,
    TooFewForAMultiple,
    TooFewForOneMore,
    TooManyForAMultiple,
    BytesRoundedUp,
    RoomAfter12,
    RoomBefore11,
    RoomBefore9,
];

/// An area's group as the frame has it, 9 being a grain, its first sector and its sectors.
pub type Area = (u64, u64, u64);

/// Sectors marked: a bit each.
pub type Marks = Vec<u64>;

impl Mistake {
    pub fn check_in(self, image: &[u8], list: &mut [u64]) -> Marked {
        let held = list.to_vec();
        let needed = (image.len() / 512 + 63) / 64;
        let found = Plain.check_in(image, list);
        if let Some(other) = self.judge_room(found, image, &held, list) {
            return other;
        }
        let written = match (self, found.number) {
            (ClearedOn9, 9) => needed.min(held.len()),
            (ClearedOn21, 21) => held.len(),
            (RestCleared, 0 | 12) => held.len(),
            _ => 0,
        };
        list[..written].fill(0);
        match (self, found.number) {
            (KeptOn12, 12) => list.copy_from_slice(&held),
            (MarksLeftOn12, 12) | (MarksLeftOnAcceptance, 0) => {
                let (marks, _) = mark(&areas(image), vec![0; needed]);
                list[..needed].copy_from_slice(&marks);
            }
            _ => {}
        }
        self.count(found, image, &held[..needed.min(held.len())])
    }

    /// The answer where the mistake asks for another room, or at another time; the list is as it leaves it.
    fn judge_room(
        self,
        found: Marked,
        image: &[u8],
        held: &[u64],
        list: &mut [u64],
    ) -> Option<Marked> {
        let short = list.len() < self.room(image.len());
        let with_room = || Plain.check_in(image, &mut vec![0; image.len() / 512 / 64 + 1]);
        let too_late = match (self, found.number) {
            (RoomBefore9, 9) | (RoomBefore11, 11) => short,
            (_, 0 | 12) => short,
            _ => false,
        };
        if too_late {
            list.copy_from_slice(held);
            return Some(Marked {
                number: 21,
                ..Marked::default()
            });
        }
        let passed = match found.number {
            21 if self == RoomAfter12 => with_room().number == 12,
            21 => !short,
            _ => false,
        };
        passed.then(|| {
            list.fill(0);
            with_room()
        })
    }

    /// The words that the mistake asks for.
    fn room(self, length: usize) -> usize {
        let f = length / 512;
        match (self, f % 64) {
            (RoundedDown, _) => f / 64,
            (TooFewForAMultiple, 0) => (f / 64).saturating_sub(1),
            (TooFewForOneMore, 1) => f / 64,
            (TooManyForAMultiple, 0) => f / 64 + 1,
            (BytesRoundedUp, _) => ((length + 511) / 512 + 63) / 64,
            _ => (f + 63) / 64,
        }
    }

    /// The answer with another number of sectors, or another place.
    fn count(self, found: Marked, image: &[u8], held: &[u64]) -> Marked {
        let answer = |number, marked| Marked {
            number,
            marked,
            ..found
        };
        match (self, found.number) {
            (NothingCountedOn12, 12) => answer(12, 0),
            (CountedOn11, 11) | (CountedOn21, 21) => answer(found.number, 1),
            (PlaceForgotten, 9 | 10) => Marked { place: 0, ..found },
            (_, 0 | 12) => {
                let areas = self.ordered(image);
                let all: u64 = areas.iter().map(|area| area.2).sum();
                let taken = match self {
                    OldBitsBelieved => held.to_vec(),
                    _ => vec![0; held.len()],
                };
                let (marks, met) = mark(&areas, taken);
                let marked: u64 = areas[..met].iter().map(|area| area.2).sum();
                let next = areas.get(met).map_or(0, |area| area.2);
                match self {
                    MeetingAreaCounted => answer(found.number, marked + next),
                    MeetingAreaInPart => answer(found.number, marked + before(&areas, met, marks)),
                    AllAreasCountedOn12 => answer(found.number, all),
                    OldBitsBelieved if next > 0 => Marked {
                        number: 12,
                        marked,
                        ..Marked::default()
                    },
                    _ => answer(found.number, marked),
                }
            }
            _ => found,
        }
    }

    /// The areas in the mistake's order and sizes.
    fn ordered(self, image: &[u8]) -> Vec<Area> {
        let mut areas = areas(image);
        // Areas of one group stay in their order.
        areas.sort_by_key(|(group, first, _)| match (self, group) {
            (GrainsBeforeTables, 9) => (4, 0),
            (FooterAfterGrains, 7 | 8) => (10, 0),
            (DescriptorAfterDirectories, 2) => (5, 0),
            (GrainsAsTheyStand, 9) => (9, *first),
            _ => (*group, 0),
        });
        match self {
            TableThenItsCopy => areas = interleaved(areas),
            LastGrainShort => {
                let head = Plain.header(image);
                let past = head.capacity % head.grain_size;
                let last = Plain.lookup(image, head.capacity - 1);
                if let (STORED, true, Some(area)) = (last.kind, past > 0, areas.last_mut()) {
                    area.2 = past;
                }
            }
            _ => {}
        }
        areas
    }
}

/// Marks areas up to the first that meets one before it, or what was marked already: the marks, and how many areas.
pub fn mark(areas: &[Area], mut marks: Marks) -> (Marks, usize) {
    for (number, (_, first, sectors)) in areas.iter().enumerate() {
        let those = *first as usize..(first + sectors) as usize;
        if those.clone().any(|sector| is_marked(&marks, sector)) {
            return (marks, number);
        }
        for sector in those {
            marks[sector / 64] |= 1 << (sector % 64);
        }
    }
    (marks, areas.len())
}

fn is_marked(marks: &Marks, sector: usize) -> bool {
    marks[sector / 64] >> (sector % 64) & 1 == 1
}

/// Sectors of the area that meets before the first that is marked already.
fn before(areas: &[Area], met: usize, marks: Marks) -> u64 {
    let (_, first, sectors) = match areas.get(met) {
        Some(area) => *area,
        None => return 0,
    };
    let free = (first..first + sectors).take_while(|at| !is_marked(&marks, *at as usize));
    free.count() as u64
}

/// Each primary table with its redundant one after it: there are as many of each, or none of the latter.
fn interleaved(areas: Vec<Area>) -> Vec<Area> {
    let group = |wanted: u64| areas.iter().filter(move |area| area.0 == wanted);
    let mut copies = group(6);
    let mut order: Vec<Area> = areas.iter().filter(|area| area.0 < 5).copied().collect();
    for table in group(5) {
        order.push(*table);
        order.extend(copies.next());
    }
    order.extend(areas.iter().filter(|area| area.0 > 6));
    order
}

/// The areas of an image that was accepted or refused 12, by frame and lookup.
pub fn areas(image: &[u8]) -> Vec<Area> {
    let mut list = vec![0; 3 * 4096];
    let framed = Plain.frame(image, &mut list);
    let frame = list.chunks(3).take(framed.count as usize);
    let mut areas: Vec<Area> = frame.map(|area| (area[0], area[1], area[2])).collect();
    let head = Plain.header(image);
    let entries = image[directory(image)..].chunks_exact(4);
    let in_table = 512 * head.grain_size;
    for (index, entry) in (0..(head.capacity + in_table - 1) / in_table).zip(entries) {
        if entry == [0; 4] {
            continue;
        }
        let end = head.capacity.min((index + 1) * in_table);
        for sector in (index * in_table..end).step_by(head.grain_size as usize) {
            let found = Plain.lookup(image, sector);
            match found.kind {
                STORED => areas.push((9, found.sector, head.grain_size)),
                PACKED => areas.push((9, found.sector, (found.size + 12 + 511) / 512)),
                _ => {}
            }
        }
    }
    areas
}
