//! What a move with a mistake lays down.

use super::{Grain, Mistake, Mistake::*};
use compare::cowd::head;
use plain::{STORED, ZERO};

impl Mistake {
    /// The result: a COWD image, or a KDMV one.
    pub fn laid(self, cowd: bool, image: &[u8], grains: &[Grain]) -> Vec<u8> {
        let head = head(image);
        let size = head.grain_size;
        let per_table = |cowd| if cowd { 4096 } else { 512 };
        let tables_of = |cowd| (grains.len() as u64 - 1) / per_table(cowd) + 1;
        let tables = match self {
            OneTableOnly => 1,
            TablesOfTheOther => tables_of(!cowd),
            _ => tables_of(cowd),
        };
        let directory = if cowd { 4 } else { 1 };
        let first_table = directory + (tables - 1) / 128 + 1;
        let end = first_table + tables * per_table(cowd) / 128;
        let rounds = match self {
            RoundedInCowd => true,
            NotRoundedInKdmv => false,
            _ => !cowd,
        };
        let front = if rounds {
            (end - 1) / size * size + size
        } else {
            end
        };
        let mut out = vec![0; front as usize * 512];
        for table in 0..tables {
            let at = first_table + table * per_table(cowd) / 128;
            put(&mut out, (directory * 512 + table * 4) as usize, at);
        }
        self.put_grains(&mut out, first_table, front, size, grains);
        let sectors = out.len() as u64 / 512;
        let count = if self == CountOfTheOther {
            tables_of(!cowd)
        } else {
            tables
        };
        if cowd {
            self.put_cowd(&mut out, image, count, [front, sectors]);
        } else {
            self.put_kdmv(&mut out, image, front);
        }
        out
    }

    /// Grains behind the front, and their entries.
    fn put_grains(self, out: &mut Vec<u8>, first_table: u64, front: u64, size: u64, all: &[Grain]) {
        let mut order: Vec<usize> = (0..all.len()).collect();
        if self == AsTheyStand {
            order.sort_by_key(|grain| all[*grain].sector);
        }
        let mut next = front;
        for grain in order {
            let entry = match all[grain].kind {
                STORED => next,
                ZERO => 1,
                _ => 0,
            };
            if let Some(bytes) =
                out.get_mut(first_table as usize * 512 + grain * 4..front as usize * 512)
            {
                put(bytes, 0, entry);
            }
            if all[grain].kind == STORED {
                out.extend_from_slice(&all[grain].bytes);
                next += size;
                out.resize(next as usize * 512, 0);
            }
        }
    }

    fn put_cowd(self, out: &mut [u8], image: &[u8], count: u64, [front, sectors]: [u64; 2]) {
        let head = head(image);
        out[..4].copy_from_slice(b"COWD");
        let length = match self {
            LengthLeftOut => 0,
            LengthInBytes => sectors * 512,
            LengthOfTheFront => front,
            _ => sectors,
        };
        let flags = if self == FlagsLeftOut { 0 } else { 3 };
        let numbers = [1, flags, head.capacity, head.grain_size, 4, count, length];
        for (index, number) in numbers.into_iter().enumerate() {
            put(out, 4 + 4 * index, number);
        }
        if self == DirtyKept {
            put(out, 1648, 1);
        }
    }

    fn put_kdmv(self, out: &mut [u8], image: &[u8], front: u64) {
        let head = head(image);
        out[..4].copy_from_slice(b"KDMV");
        let numbers = [
            (4, 2),
            (8, 5),
            (12, head.capacity),
            (20, head.grain_size),
            (44, 512),
            (56, 1),
            (64, front),
        ];
        for (at, number) in numbers {
            put(out, at, number);
        }
        if self != NewlineLeftOut {
            out[73..77].copy_from_slice(b"\n \r\n");
        }
        out[72] = (self == DirtyKept).into();
    }
}

fn put(bytes: &mut [u8], at: usize, number: u64) {
    if let Some(place) = bytes.get_mut(at..at + 4) {
        place.copy_from_slice(&number.to_le_bytes()[..4]);
    }
}
