//! What images are to be, by numbers as if by chance.

/// Numbers as if by chance, the same in every run.
pub struct Chance(pub u64);

impl Chance {
    pub fn below(&mut self, end: u64) -> u64 {
        self.0 ^= self.0 << 13;
        self.0 ^= self.0 >> 7;
        self.0 ^= self.0 << 17;
        self.0 % end
    }

    pub fn once_in(&mut self, times: u64) -> bool {
        self.below(times) == 0
    }
}

/// What an image is to be.
#[derive(Clone, Copy)]
pub struct Form {
    pub cowd: bool,
    pub packed: bool,
    pub footer: bool,
    pub redundant: bool,
    /// An entry of 1 means zeros.
    pub zeroed: bool,
    pub capacity: u64,
    pub grain: u64,
}

impl Form {
    pub fn by_chance(chance: &mut Chance) -> Form {
        if chance.once_in(4) {
            return Form::cowd(chance);
        }
        let packed = chance.once_in(2);
        Form {
            cowd: false,
            packed,
            footer: packed && chance.once_in(2),
            redundant: chance.once_in(2),
            zeroed: chance.once_in(2),
            // It ends inside of a grain.
            capacity: 8997,
            grain: 8,
        }
    }

    /// Of up to three tables, but for small grains, which cannot be moved.
    fn cowd(chance: &mut Chance) -> Form {
        let small = chance.once_in(8);
        Form {
            cowd: true,
            packed: false,
            footer: false,
            redundant: false,
            zeroed: false,
            capacity: 8997 + if small { 0 } else { 32768 * chance.below(3) },
            grain: if small { 2 } else { 8 },
        }
    }

    pub fn entries(&self) -> u64 {
        if self.cowd {
            4096
        } else {
            512
        }
    }

    /// How many entries, from 0 on, name no sector.
    pub fn none(&self) -> u64 {
        1 + u64::from(self.zeroed)
    }

    pub fn directory_entries(&self) -> u64 {
        let held = self.entries() * self.grain;
        (self.capacity + held - 1) / held
    }
}
