//! Random numbers that are the same on every run: splitmix64, no clock.

pub struct Rng {
    state: u64,
}

impl Rng {
    /// A stream of its own for each name, so that a new user of the seed leaves
    /// the numbers of the others as they were.
    pub fn new(seed: u64, name: &str) -> Self {
        // FNV-1a: all that is wanted is that different names part.
        let hash = name.bytes().fold(0xCBF2_9CE4_8422_2325, |hash: u64, byte| {
            (hash ^ u64::from(byte)).wrapping_mul(0x0000_0100_0000_01B3)
        });
        Self { state: seed ^ hash }
    }

    pub fn bits(&mut self) -> u64 {
        self.state = self.state.wrapping_add(0x9E37_79B9_7F4A_7C15);
        let mixed = (self.state ^ (self.state >> 30)).wrapping_mul(0xBF58_476D_1CE4_E5B9);
        let mixed = (mixed ^ (mixed >> 27)).wrapping_mul(0x94D0_49BB_1331_11EB);
        mixed ^ (mixed >> 31)
    }

    /// A number from 0 up to, but without, `end`.
    pub fn below(&mut self, end: u64) -> u64 {
        ((u128::from(self.bits()) * u128::from(end)) >> 64) as u64
    }

    pub fn byte(&mut self) -> u8 {
        self.bits() as u8
    }

    /// A byte from `first` to `last`, both included.
    pub fn byte_between(&mut self, first: u8, last: u8) -> u8 {
        first + self.below(u64::from(last - first) + 1) as u8
    }

    pub fn percent(&mut self, chance: u64) -> bool {
        self.below(100) < chance
    }

    pub fn pick<T: Copy>(&mut self, list: &[T]) -> T {
        list[self.below(list.len() as u64) as usize]
    }
}
