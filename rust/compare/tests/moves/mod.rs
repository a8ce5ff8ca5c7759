//! Mistakes of the moves, in one that is made anew from the plain side's check and lookups; of COWD, which these refuse, from
//! its header and entries.

mod laid;

use crate::closes::number;
use crate::miscounts::directory;
use compare::cowd::{grain_at, head, is_cowd, kept_check, PER_TABLE};
use compare::side::{Plain, Side};
use plain::{Located, Verdict, Written, ABSENT, STORED, ZERO};

mistakes! {
    Remade:
    KindBeforeTheCheck PlaceDropped KindItselfTaken PackedAfterOpen OpenMoved OpenOfLowByte OpenAfterZeros
    SizesMoved Size4Moved ZeroAsAbsent ZeroAsStored ZeroAsOne ZerosOfDirectoryMoved LastGrainUnasked
    RoomBefore44 RoomBefore27 ByteMore ByteLess
    RoundedInCowd NotRoundedInKdmv Turned AsTheyStand OneTableOnly TablesOfTheOther
    PastCapacityCopied LastGrainShort BlankAsAbsent
    LengthLeftOut LengthInBytes LengthOfTheFront FlagsLeftOut CountOfTheOther NewlineLeftOut DirtyKept
    LengthInSectors WrittenOn44 WrittenOn27 ByteOnRefusal RestCleared
    CowdRefused CowdRefusedBack VersionOfCowdTaken OnesOfCowdAbsent OverlapMoved OpenOfByte72
}

/// More grains than this are not looked up one by one.
const MOST: u64 = 6000;

/// What one grain is: its kind, the sector that it stands at, and its bytes below capacity.
pub struct Grain {
    kind: u64,
    sector: u64,
    bytes: Vec<u8>,
}

impl crate::Mistake {
    /// A move to COWD, or to KDMV.
    pub fn move_wrongly(&self, cowd: bool, image: &[u8], out: &mut [u8]) -> Written {
        match self {
            crate::Mistake::Moves(mistake) => mistake.write(cowd, image, out),
            _ => plain_move(cowd, image, out),
        }
    }
}

impl Mistake {
    fn write(self, cowd: bool, image: &[u8], out: &mut [u8]) -> Written {
        let cowd = cowd != (self == Turned);
        let verdict = self.check(cowd, image);
        let head = head(image);
        if let Some(other) = self.taken(verdict, image) {
            return plain_move(cowd, &other, out);
        }
        if verdict.number == 0 && head.capacity / head.grain_size >= MOST {
            return plain_move(cowd, image, out);
        }
        if self == KindBeforeTheCheck && is_cowd(image) == cowd && verdict.number > 2 {
            return refused(23, 0);
        }
        if verdict.number != 0 {
            self.spill(verdict.number, &[1], out);
            let place = match self {
                PlaceDropped => 0,
                _ => verdict.place,
            };
            return refused(verdict.number, place);
        }
        let grains = self.grains(image);
        let result = self.laid(cowd, image, &grains);
        let number = self.judge(cowd, image, &grains, result.len(), out.len());
        if number != 0 {
            self.spill(number, &result, out);
            return refused(number, 0);
        }
        let written = result.len().min(out.len());
        out[..written].copy_from_slice(&result[..written]);
        if self == RestCleared {
            out[written..].fill(0);
        }
        let unit = if self == LengthInSectors { 512 } else { 1 };
        Written {
            length: result.len() as u64 / unit,
            ..Written::default()
        }
    }

    /// The check that the moves keep: the plain side's, which for COWD only a move tells.
    fn check(self, cowd: bool, image: &[u8]) -> Verdict {
        let refused = |number, place| Verdict {
            number,
            place,
            ..Verdict::default()
        };
        let verdict = match is_cowd(image) {
            true => {
                let kept = kept_check(image);
                refused(kept.number, kept.place)
            }
            false => Plain.check(image),
        };
        match (self, verdict.number) {
            (OverlapMoved, 12) => Verdict::default(),
            (CowdRefused, 0 | 3..=12) if is_cowd(image) && !cowd => refused(43, 0),
            (CowdRefusedBack, 0 | 3..=12) if is_cowd(image) && cowd => refused(43, 0),
            _ => verdict,
        }
    }

    /// What a refused COWD image is taken for.
    fn taken(self, verdict: Verdict, image: &[u8]) -> Option<Vec<u8>> {
        let mut other = image.to_vec();
        match (self, verdict.number) {
            (VersionOfCowdTaken, 3) if is_cowd(image) => other[4..8].copy_from_slice(&[1, 0, 0, 0]),
            (OnesOfCowdAbsent, 12) if is_cowd(image) => clear_ones(&mut other),
            _ => return None,
        }
        Some(other)
    }

    /// What the mistake writes on a refusal.
    fn spill(self, number: u64, result: &[u8], out: &mut [u8]) {
        let spilled = match (self, number) {
            (WrittenOn44, 44) | (WrittenOn27, 27) => result.len().min(out.len()),
            (ByteOnRefusal, _) => out.len().min(1),
            _ => 0,
        };
        out[..spilled].copy_from_slice(&result[..spilled]);
    }

    /// 23, 27, 44 and 21, in the mistake's order, of an accepted image.
    fn judge(self, cowd: bool, image: &[u8], grains: &[Grain], needed: usize, room: usize) -> u64 {
        let short = match self {
            ByteMore => room <= needed,
            ByteLess => room + 1 < needed,
            _ => room < needed,
        };
        let open = match self {
            OpenMoved => false,
            OpenOfLowByte => head(image).dirty % 256 != 0,
            OpenOfByte72 => image[72] != 0,
            _ => head(image).dirty != 0,
        };
        let kind = is_cowd(image) == cowd && self != KindItselfTaken;
        let packed = !is_cowd(image) && image[77] == 1;
        let mut faults = [
            (23, kind || packed),
            (27, open),
            (44, self.unmovable(cowd, image, grains)),
            (21, short),
        ];
        match self {
            PackedAfterOpen if !kind => faults.swap(0, 1),
            OpenAfterZeros | RoomBefore44 => {
                let first = if self == RoomBefore44 { 2 } else { 1 };
                faults.swap(first, first + 1);
            }
            RoomBefore27 => faults.swap(1, 3),
            _ => {}
        }
        let first = faults.iter().find(|(_, holds)| *holds);
        first.map_or(0, |(number, _)| *number)
    }

    /// Whether it is refused 44.
    fn unmovable(self, cowd: bool, image: &[u8], grains: &[Grain]) -> bool {
        let grain_size = head(image).grain_size;
        let least = match self {
            SizesMoved => 1,
            Size4Moved => 4,
            _ => 8,
        };
        let asked = match self {
            ZeroAsAbsent | ZeroAsStored | ZeroAsOne => &[],
            LastGrainUnasked => &grains[..grains.len() - 1],
            _ => grains,
        };
        let in_directory = |g: usize| self == ZerosOfDirectoryMoved && named_by_directory(image, g);
        let mut asked = asked.iter().enumerate();
        let zero = asked.any(|(g, grain)| grain.kind == ZERO && !in_directory(g));
        grain_size < least || (zero && cowd)
    }

    /// Each grain of an accepted image, as the mistake takes it.
    fn grains(self, image: &[u8]) -> Vec<Grain> {
        let head = head(image);
        let (capacity, size) = (head.capacity, head.grain_size);
        let grains = (0..capacity).step_by(size as usize);
        let taken = grains.map(|first| {
            let located = located(image, first, size);
            let below = size.min(capacity - first);
            let sectors = match self {
                PastCapacityCopied => size,
                LastGrainShort if below < size => below - 1,
                _ => below,
            };
            let from = located.sector as usize * 512;
            let bytes = match located.kind {
                STORED => image[from..from + sectors as usize * 512].to_vec(),
                _ => Vec::new(),
            };
            let kind = match (self, located.kind) {
                (ZeroAsAbsent, ZERO) => ABSENT,
                (ZeroAsStored, ZERO) => STORED,
                (BlankAsAbsent, STORED) if bytes.iter().all(|byte| *byte == 0) => ABSENT,
                (_, kind) => kind,
            };
            Grain {
                kind,
                sector: located.sector,
                bytes,
            }
        });
        taken.collect()
    }
}

/// Where a grain's first sector comes from.
fn located(image: &[u8], first: u64, size: u64) -> Located {
    if !is_cowd(image) {
        return Plain.lookup(image, first);
    }
    let sector = grain_at(image, first / size);
    Located {
        kind: if sector == 0 { ABSENT } else { STORED },
        sector,
        ..Located::default()
    }
}

/// Entries in use of a COWD image that passed 8 are not 1 any more.
fn clear_ones(image: &mut [u8]) {
    let head = head(image);
    let grains = (head.capacity - 1) / head.grain_size + 1;
    let clear = |image: &mut [u8], at: usize| {
        if image[at..at + 4] == [1, 0, 0, 0] {
            image[at] = 0;
        }
    };
    let entry = |image: &[u8], at: usize| number(image, at as u64, 4) as usize;
    let directory = entry(image, 20) * 512;
    for index in 0..=(grains - 1) / PER_TABLE {
        let at = directory + index as usize * 4;
        clear(image, at);
        let table = entry(image, at) * 512;
        let used = PER_TABLE.min(grains - index * PER_TABLE) as usize;
        for cell in (0..used).filter(|_| table > 0) {
            clear(image, table + cell * 4);
        }
    }
}

/// Whether a grain of an accepted KDMV image is zero by its directory entry.
fn named_by_directory(image: &[u8], grain: usize) -> bool {
    let at = directory(image) + grain / 512 * 4;
    image[at..at + 4] == [1, 0, 0, 0]
}

fn plain_move(cowd: bool, image: &[u8], out: &mut [u8]) -> Written {
    if cowd {
        Plain.to_cowd(image, out)
    } else {
        Plain.to_kdmv(image, out)
    }
}

fn refused(number: u64, place: u64) -> Written {
    Written {
        number,
        place,
        length: 0,
    }
}
