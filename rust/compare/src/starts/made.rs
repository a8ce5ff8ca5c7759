//! Starts of streams: blocks of every kind, a block that ends the walk, a cut, and changes of the header at the edges of 41.

use crate::image::{put, size, up};
use crate::rng::Rng;

struct Start {
    bytes: Vec<u8>,
    capacity: u64,
    grain_size: u64,
    overhead: u64,
    /// The number of the last grain, and one more; 0 where there is none.
    next: u64,
    markers: Vec<usize>,
}

/// A start; which kinds of block and of change it has depends on `which` alone.
pub fn made(rng: &mut Rng, which: u64) -> Vec<u8> {
    let mut start = Start::of(rng);
    for _ in 0..rng.pick(&[0, 1, 2, 3, 4, 6, 12]) {
        start.add_block(rng);
    }
    if which % 4 != 0 {
        start.add_stop(rng, which / 4);
        for _ in 0..rng.below(3) {
            start.add_block(rng);
        }
    }
    start.cut(rng);
    if which % 3 == 0 {
        start.change(rng, which / 3);
    }
    start.bytes
}

impl Start {
    fn of(rng: &mut Rng) -> Start {
        let (capacity, grain_size) = size(rng, false, true);
        let overhead = rng.pick(&[2, 2, 3, 4, 7, 128]);
        let mut bytes = vec![0; overhead as usize * 512];
        if rng.one_in(2) {
            rng.fill(&mut bytes[72..]);
        }
        let version = rng.within(1, 3);
        let zeros = if version > 1 { rng.pick(&[0, 4]) } else { 0 };
        let newline = rng.below(2);
        let numbers = [
            (0, 4, 0x564d_444b),
            (4, 4, version),
            (8, 4, 0x30000 | zeros | newline),
            (12, 8, capacity),
            (20, 8, grain_size),
            (44, 4, 512),
            (56, 8, u64::MAX),
            (64, 8, overhead),
            (73, 4, 0x0a0d_200a),
            (77, 2, 1),
        ];
        for (at, length, number) in numbers {
            put(&mut bytes, at, length, number);
        }
        if rng.one_in(2) {
            let first = rng.within(1, overhead - 1);
            put(&mut bytes, 28, 8, first);
            put(&mut bytes, 36, 8, rng.within(1, overhead - first));
        }
        Start {
            bytes,
            capacity,
            grain_size,
            overhead,
            next: 0,
            markers: Vec::new(),
        }
    }

    /// A marker, and noise up to so many sectors in all.
    fn add(&mut self, rng: &mut Rng, numbers: [u64; 3], sectors: u64) {
        let at = self.bytes.len();
        self.markers.push(at);
        self.bytes.resize(at + sectors as usize * 512, 0);
        rng.fill(&mut self.bytes[at..]);
        let [first, size, kind] = numbers;
        put(&mut self.bytes, at, 8, first);
        put(&mut self.bytes, at + 8, 4, size);
        if size == 0 || rng.one_in(4) {
            put(&mut self.bytes, at + 12, 4, kind);
        }
    }

    fn add_block(&mut self, rng: &mut Rng) {
        let grains = up(self.capacity, self.grain_size);
        match rng.below(8) {
            0 => self.add_other(rng, 1, 4),
            1 => {
                let sectors = up(up(self.capacity, 512 * self.grain_size) * 4, 512);
                if sectors < 5 || rng.one_in(sectors) {
                    self.add_other(rng, 2, sectors);
                }
            }
            _ if self.next < grains => {
                let table = self.next + 511 - (self.next + 511) % 512;
                let grain = match rng.below(8) {
                    0..=3 => self.next,
                    4 => self.next + rng.within(1, 3),
                    5 => table + rng.pick(&[0, 511]),
                    6 => table + 512 * rng.within(1, 3) + rng.below(3) - 1,
                    _ => grains - 1,
                };
                self.add_grain(rng, grain.min(grains - 1));
            }
            _ => {}
        }
    }

    /// A table or a directory, with any first number.
    fn add_other(&mut self, rng: &mut Rng, kind: u64, sectors: u64) {
        let first = rng.pick(&[sectors, sectors, 0, 1, u64::MAX]);
        self.add(rng, [first, 0, kind], 1 + sectors);
    }

    fn add_grain(&mut self, rng: &mut Rng, grain: u64) {
        self.add_first(rng, grain * self.grain_size);
        self.next = grain + 1;
    }

    /// A whole grain of this first sector.
    fn add_first(&mut self, rng: &mut Rng, first: u64) {
        let any = rng.within(1, 3000);
        let size = rng.pick(&[1, 499, 500, 501, 1012, 1013, any, any]);
        let kind = rng.below(5);
        self.add(rng, [first, size, kind], up(12 + size, 512));
    }

    /// A block that ends the walk.
    fn add_stop(&mut self, rng: &mut Rng, which: u64) {
        let (capacity, size) = (self.capacity, self.grain_size);
        let end = up(capacity, size) * size;
        let last = self.next.saturating_sub(1) * size;
        match which % 8 {
            0 => self.add(rng, [0, 0, 0], 1),
            1 => {
                let first = rng.below(2);
                self.add(rng, [first, 0, 3], 1);
            }
            2 => {
                let kind = rng.pick(&[4, 5, 256, 257, 258, 0x1_0001, 0x100_0002, u32::MAX.into()]);
                // By the low byte a table or a directory would follow, and then a grain.
                let sectors = match kind % 256 {
                    1 => 5,
                    2 => 2,
                    _ => 1,
                };
                self.add(rng, [4, 0, kind], sectors);
            }
            3 => {
                let past = rng.pick(&[1, size / 2, size - 1]);
                self.add_first(rng, (self.next * size + past).min(capacity));
            }
            4 => {
                let far = rng.pick(&[end, end, end + size, 1 << 32, u64::MAX - size + 1, u64::MAX]);
                self.add_first(rng, far);
            }
            5 => self.add_first(rng, last),
            6 => {
                let below = size * rng.within(1, 3);
                self.add_first(rng, last.saturating_sub(below));
            }
            // A grain that no file holds.
            _ => self.add(rng, [self.next * size, u32::MAX.into(), 0], 1),
        }
    }

    fn cut(&mut self, rng: &mut Rng) {
        let (least, length) = (self.overhead as usize * 512, self.bytes.len());
        let cut = match rng.below(6) {
            0 if length > least => least + rng.index(length - least),
            1 => length - rng.index((length - least).min(2600) + 1),
            2 if !self.markers.is_empty() => {
                let marker = rng.pick(&self.markers);
                marker + rng.pick(&[0, 1, 12, 16, 511, 512, 1024, 5 * 512, 5 * 512 - 1])
            }
            3 => length + rng.within(1, 511) as usize,
            _ => length,
        };
        self.bytes.resize(cut, 0xee);
    }

    /// Changes the header at an edge.
    fn change(&mut self, rng: &mut Rng, which: u64) {
        let sectors = self.bytes.len() as u64 / 512;
        let overhead = self.overhead;
        let mut put = |at: usize, length, number| put(&mut self.bytes, at, length, number);
        match which % 12 {
            0 => put(64, 8, rng.pick(&[0, 1, 1, 2])),
            1 => put(
                64,
                8,
                rng.pick(&[sectors, sectors + 1, sectors + 1, u64::MAX]),
            ),
            2 => put(28, 8, 0),
            3 => put(36, 8, 0),
            4 => {
                // Up to overhead, and a sector more.
                let first = rng.within(1, overhead - 1);
                put(28, 8, first);
                put(36, 8, overhead - first + rng.below(2));
            }
            5 => {
                let (first, count) = rng.pick(&[
                    (overhead, 1),
                    (1, u64::MAX),
                    (u64::MAX, 1),
                    (2, u64::MAX - 1),
                ]);
                put(28, 8, first);
                put(36, 8, count);
            }
            6 => put(48, 8, rng.pick(&[1, 2, u64::MAX])),
            7 => put(56, 8, rng.pick(&[0, 1, overhead, u64::MAX - 1])),
            8 => {
                // 6 and 41.
                put(48, 8, 1);
                put(20, 8, rng.pick(&[4, 12, 4096]));
            }
            9 => put(rng.pick(&[0, 4]), 4, 9),
            10 => put(77, 2, 0),
            _ => self
                .bytes
                .truncate(rng.pick(&[0, 3, 4, 511, 512, 1023, 1024])),
        }
    }
}
