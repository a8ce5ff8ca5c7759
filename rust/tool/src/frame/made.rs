//! Images of every kind and with every kind of damage, by numbers as if by chance.

#[path = "form.rs"]
mod form;

use form::{Chance, Form};

/// An image under construction: areas one after the other, all noise until they are written.
struct Made {
    bytes: Vec<u8>,
    chance: Chance,
    /// Sectors so far.
    used: u64,
    /// Grain 0 is there already: at sector 1, right after the header.
    early: bool,
    /// The sectors of tables that are there twice.
    copies: Vec<u64>,
}

impl Made {
    fn new(seed: u64) -> Made {
        Made {
            bytes: Vec::new(),
            chance: Chance(seed.wrapping_mul(0x9e37_79b9_7f4a_7c15) | 1),
            used: 0,
            early: false,
            copies: Vec::new(),
        }
    }

    fn area(&mut self, sectors: u64) -> u64 {
        let first = self.used;
        self.used += sectors;
        for _ in 0..64 * sectors {
            let noise = self.chance.below(u64::MAX);
            self.bytes.extend(noise.to_le_bytes());
        }
        first
    }

    fn put(&mut self, at: u64, bytes: &[u8]) {
        let at = at as usize;
        if let Some(part) = self.bytes.get_mut(at..at + bytes.len()) {
            part.copy_from_slice(bytes);
        }
    }

    fn word(&mut self, at: u64, word: u64) {
        self.put(at, &(word as u32).to_le_bytes());
    }

    /// One grain's entry.
    fn grain(&mut self, form: &Form, number: u64) -> u64 {
        if number * form.grain >= form.capacity {
            // Entries past the last grain may be anything.
            return self.chance.below(1 << 32);
        }
        if number == 0 && self.early {
            return 1;
        }
        let rare = if form.cowd { 100 } else { 30 };
        if !self.chance.once_in(if form.packed { 8 } else { rare }) {
            return self.chance.below(form.none());
        }
        self.stored(form, number)
    }

    /// One grain, and its sector.
    fn stored(&mut self, form: &Form, number: u64) -> u64 {
        if !form.packed {
            return self.area(form.grain);
        }
        let most = 1000 << self.chance.below(4);
        let size = 1 + self.chance.below(most);
        let first = self.area((12 + size + 511) / 512);
        self.put(512 * first, &(number * form.grain).to_le_bytes());
        self.word(512 * first + 8, size);
        first
    }

    /// A directory, its tables and the same once more, if there are to be two; the sectors of both.
    fn tables(&mut self, form: &Form) -> (u64, u64) {
        let n = form.directory_entries();
        let sectors = form.entries() * 4 / 512;
        let mut directories = [self.area(1), if form.redundant { self.area(1) } else { 0 }];
        // The copy may stand first.
        if form.redundant && self.chance.once_in(2) {
            directories.reverse();
        }
        for entry in 0..n {
            let none = self.chance.once_in(8);
            let word = self.chance.below(form.none());
            let both: Vec<u64> = directories
                .iter()
                .take(1 + usize::from(form.redundant))
                .map(|_| if none { word } else { self.area(sectors) })
                .collect();
            for (directory, table) in directories.iter().zip(&both) {
                self.word(512 * directory + 4 * entry, *table);
            }
            if none {
                continue;
            }
            if form.redundant {
                self.copies.extend(&both);
            }
            for index in 0..form.entries() {
                let word = self.grain(form, entry * form.entries() + index);
                for table in &both {
                    self.word(512 * table + 4 * index, word);
                }
            }
        }
        (directories[0], directories[1])
    }

    /// Mostly the disk was not open any more.
    fn dirty(&mut self) -> u64 {
        self.chance.below(256) * u64::from(self.chance.once_in(4))
    }

    fn kdmv(&mut self, form: &Form) {
        self.area(1);
        if !form.zeroed && self.chance.once_in(2) {
            self.stored(form, 0);
            self.early = true;
        }
        let described = self.chance.below(3);
        let descriptor = if described > 0 {
            self.area(described)
        } else {
            0
        };
        let (directory, redundant) = self.tables(form);
        let flags = 1 + 4 * u32::from(form.zeroed) + 0x30000 * u32::from(form.packed);
        let mut head = b"KDMV".to_vec();
        head.extend(3u32.to_le_bytes());
        head.extend(flags.to_le_bytes());
        for number in [form.capacity, form.grain, descriptor, described] {
            head.extend(number.to_le_bytes());
        }
        head.extend(512u32.to_le_bytes());
        let at_end = if form.footer { u64::MAX } else { directory };
        for number in [redundant, at_end, 0] {
            head.extend(number.to_le_bytes());
        }
        head.push(self.dirty() as u8);
        head.extend(b"\n \r\n");
        head.extend(u16::from(form.packed).to_le_bytes());
        head.resize(512, 0);
        self.put(0, &head);
        if form.footer {
            let footer = 512 * self.area(2);
            self.put(footer, &head);
            self.put(footer + 56, &directory.to_le_bytes());
            self.put(footer + 512, &[0; 512]);
        }
    }

    fn cowd(&mut self, form: &Form) {
        self.area(4);
        let (directory, _) = self.tables(form);
        let mut head = b"COWD".to_vec();
        let n = form.directory_entries() + self.chance.below(3);
        for number in [1, 3, form.capacity, form.grain, directory, n] {
            head.extend((number as u32).to_le_bytes());
        }
        self.put(0, &head);
        let dirty = self.dirty();
        self.word(1648, dirty);
    }

    /// Damage of some kind, or none.
    fn damage(&mut self, form: &Form) {
        let length = 512 * self.used;
        match self.chance.below(11) {
            // An entry, mostly of a table in the beginning, or a number of the header.
            0 | 1 => {
                let most = if self.chance.once_in(4) {
                    length
                } else {
                    16 * 512
                };
                let at = 4 * self.chance.below(most / 4);
                let word = self.chance.below(2 * self.used);
                self.word(at, word);
            }
            2 => {
                let at = 4 * self.chance.below(20);
                let word = self.chance.below(1 << 33);
                self.word(at, word);
            }
            // A descriptor or a redundant directory that has no place.
            3 if !form.cowd => {
                let at = [28, 36, 48][self.chance.below(3) as usize];
                let number = self.chance.below(2) * (self.used + self.chance.below(1 << 40));
                self.put(at, &number.to_le_bytes());
            }
            4 | 5 => {
                let most = 512 << self.chance.below(7);
                let cut = 1 + self.chance.below(length.min(most));
                self.bytes.truncate((length - cut) as usize);
            }
            // Maybe a marker's size.
            6 if form.packed => {
                let at = 512 * self.chance.below(self.used) + 8;
                let size = self.chance.below(2) * 512 * self.chance.below(self.used);
                self.word(at, size);
            }
            // Entries of one table that its copy does not have so.
            8 | 9 if !self.copies.is_empty() => {
                let tables = self.copies.len() as u64;
                let table = 512 * self.copies[self.chance.below(tables) as usize];
                for _ in 0..=self.chance.below(4) {
                    let [one, another] = [(); 2].map(|()| table + 4 * self.chance.below(200));
                    let entry = self.bytes[one as usize..][..4].to_vec();
                    self.word(one, 0);
                    if self.chance.once_in(2) {
                        self.put(another, &entry);
                    }
                }
            }
            7 => {
                let most = 64 << self.chance.below(12);
                self.bytes.truncate(self.chance.below(most) as usize);
            }
            _ => {}
        }
        if self.chance.once_in(4) {
            self.bytes.extend([0xff; 77]);
        }
    }
}

pub fn image(seed: u64) -> Vec<u8> {
    let mut made = Made::new(seed);
    let form = Form::by_chance(&mut made.chance);
    if form.cowd {
        made.cowd(&form);
    } else {
        made.kdmv(&form);
    }
    made.damage(&form);
    made.bytes
}
