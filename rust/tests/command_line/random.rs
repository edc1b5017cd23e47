//! A small generator of random numbers, and random and damaged files.

/// SplitMix64.
pub struct Random {
    state: u64,
}

/// The kinds of each sort of file with the lengths of their bodies.
pub const MODEL: &[(u8, usize)] = &[
    (0x01, 2),
    (0x02, 19),
    (0x03, 1),
    (0x04, 1),
    (0x05, 5),
    (0x06, 4),
    (0x07, 2),
    (0x08, 3),
    (0x09, 8),
    (0x0A, 13),
    (0x0B, 5),
];
pub const TABLE: &[(u8, usize)] = &[(0x20, 6), (0x21, 10), (0x22, 0), (0x23, 8), (0x24, 16)];
pub const SCRIPT: &[(u8, usize)] = &[
    (0x01, 1),
    (0x02, 1),
    (0x03, 1),
    (0x04, 5),
    (0x05, 1),
    (0x06, 1),
    (0x07, 1),
    (0x08, 1),
    (0x09, 1),
    (0x0A, 1),
    (0x0B, 2),
];

impl Random {
    pub fn new(seed: u64) -> Random {
        Random { state: seed }
    }

    fn number(&mut self) -> u64 {
        self.state = self.state.wrapping_add(0x9E37_79B9_7F4A_7C15);
        let mut mixed = self.state;
        mixed = (mixed ^ (mixed >> 30)).wrapping_mul(0xBF58_476D_1CE4_E5B9);
        mixed = (mixed ^ (mixed >> 27)).wrapping_mul(0x94D0_49BB_1331_11EB);
        mixed ^ (mixed >> 31)
    }

    pub fn below(&mut self, bound: usize) -> usize {
        ((self.number() >> 33) % bound as u64) as usize
    }

    /// Mostly a small byte, so that many fields mean something.
    fn byte(&mut self) -> u8 {
        match self.below(8) {
            0..=4 => self.below(9) as u8,
            5 => 255,
            _ => self.number() as u8,
        }
    }

    pub fn bytes(&mut self, most: usize) -> Vec<u8> {
        (0..self.below(most + 1)).map(|_| self.byte()).collect()
    }

    /// Whole records of any kinds in any order, with any fields.
    pub fn records(&mut self, kinds: &[(u8, usize)]) -> Vec<u8> {
        let mut bytes = Vec::new();
        for _ in 0..1 + self.below(12) {
            let (kind, body) = kinds[self.below(kinds.len())];
            bytes.push(kind);
            bytes.extend((0..body).map(|_| self.byte()));
        }
        bytes
    }

    /// Some bytes changed, added, dropped or cut off.
    pub fn damaged(&mut self, whole: &[u8]) -> Vec<u8> {
        let mut bytes = whole.to_vec();
        for _ in 0..1 + self.below(4) {
            let at = self.below(bytes.len().max(1));
            match self.below(8) {
                0 => bytes.insert(at.min(bytes.len()), self.byte()),
                1 if !bytes.is_empty() => drop(bytes.remove(at)),
                2 => bytes.truncate(at),
                _ if !bytes.is_empty() => bytes[at] = self.byte(),
                _ => {}
            }
        }
        bytes
    }
}
