//! The parts of a program's input: u64 numbers and runs of bytes, one after the other. A cut input panics: it is a stored file.

pub struct Input<'a> {
    rest: &'a [u8],
}

impl<'a> Input<'a> {
    pub fn new(bytes: &'a [u8]) -> Input<'a> {
        Input { rest: bytes }
    }

    pub fn is_empty(&self) -> bool {
        self.rest.is_empty()
    }

    pub fn bytes(&mut self, count: u64) -> &'a [u8] {
        let (part, rest) = self.rest.split_at(count as usize);
        self.rest = rest;
        part
    }

    pub fn number(&mut self) -> u64 {
        self.numbers(1)[0]
    }

    pub fn numbers(&mut self, count: u64) -> Vec<u64> {
        let number = |eight: &[u8]| {
            eight
                .iter()
                .rev()
                .fold(0, |n, byte| n << 8 | u64::from(*byte))
        };
        self.bytes(8 * count).chunks(8).map(number).collect()
    }
}
