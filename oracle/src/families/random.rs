//! A small deterministic generator (splitmix64), so that a seed names the same texts for ever.

/// The generator's state.
pub struct Random(u64);

impl Random {
    /// A generator that depends on each of the numbers.
    pub fn new(numbers: [u64; 3]) -> Self {
        let mut random = Self(0x5045_565A_4F4E_4353);
        for number in numbers {
            random.0 ^= number;
            random.0 = random.next();
        }
        random
    }

    fn next(&mut self) -> u64 {
        self.0 = self.0.wrapping_add(0x9E37_79B9_7F4A_7C15);
        let mut z = self.0;
        z = (z ^ (z >> 30)).wrapping_mul(0xBF58_476D_1CE4_E5B9);
        z = (z ^ (z >> 27)).wrapping_mul(0x94D0_49BB_1331_11EB);
        z ^ (z >> 31)
    }

    /// A number below `bound`, which is not 0.
    pub fn below(&mut self, bound: usize) -> usize {
        (self.next() % bound as u64) as usize
    }

    /// True in `percent` of a hundred cases.
    pub fn chance(&mut self, percent: usize) -> bool {
        self.below(100) < percent
    }

    /// One of the choices.
    pub fn pick<'a, T: ?Sized>(&mut self, choices: &[&'a T]) -> &'a T {
        choices[self.below(choices.len())]
    }

    /// An admitted character: mostly ASCII, else from any part of the set.
    pub fn character(&mut self) -> char {
        const PARTS: [(u32, u32); 6] = [
            (0x20, 0x7E),
            (0x20, 0x7E),
            (0x00, 0x2C1),
            (0x370, 0x481),
            (0x2190, 0x243F),
            (0x80, 0xFF),
        ];
        let (low, high) = PARTS[self.below(PARTS.len())];
        let code = low + self.below((high - low + 1) as usize) as u32;
        char::from_u32(code).unwrap_or(' ')
    }

    /// A number of any 64 bits.
    pub fn bits(&mut self) -> u64 {
        self.next()
    }
}
