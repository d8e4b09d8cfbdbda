//! Random numbers, the same in every test run.

/// The generator splitmix64.
pub struct Random(pub u64);

impl Random {
    pub fn bits(&mut self) -> u64 {
        self.0 = self.0.wrapping_add(0x9E37_79B9_7F4A_7C15);
        let mut z = self.0;
        z = (z ^ (z >> 30)).wrapping_mul(0xBF58_476D_1CE4_E5B9);
        z = (z ^ (z >> 27)).wrapping_mul(0x94D0_49BB_1331_11EB);
        z ^ (z >> 31)
    }

    /// A number below `limit`.
    pub fn below(&mut self, limit: usize) -> usize {
        (self.bits() % limit as u64) as usize
    }

    /// A number from `low` to `high`, both included.
    pub fn between(&mut self, low: usize, high: usize) -> usize {
        low + self.below(high - low + 1)
    }

    /// Whether an event that comes once in `times` comes now.
    pub fn once_in(&mut self, times: usize) -> bool {
        self.below(times) == 0
    }

    pub fn pick<T: Copy>(&mut self, choices: &[T]) -> T {
        choices[self.below(choices.len())]
    }

    /// A pattern of 32 bits, mostly one at which some rule changes.
    pub fn pattern(&mut self) -> u32 {
        match self.below(8) {
            0..=3 => self.pick(&EDGES),
            4 => self.below(41) as u32,
            5 => (self.below(41) as u32).wrapping_neg(),
            _ => self.bits() as u32,
        }
    }

    /// A dividend and its divisor, of which it leaves half, or about one more or less.
    pub fn about_half(&mut self) -> (i32, i32) {
        loop {
            let divisor = match self.below(4) {
                0 => self.pattern() as i32,
                1 => self.bits() as i32 >> self.below(32),
                _ => self.between(1, 20) as i32 * self.pick(&[1, -1]),
            };
            let word = self.bits() as i32 >> self.below(32);
            // Rust gives no remainder for the least word by -1, where it is 0
            let multiple = word - word.checked_rem(divisor).unwrap_or(0);
            let half = i64::from(divisor / 2) + self.below(3) as i64 - 1;
            match i32::try_from(i64::from(multiple) + half) {
                Ok(dividend) if divisor != 0 => return (dividend, divisor),
                _ => {}
            }
        }
    }

    pub fn bytes(&mut self, length: usize) -> Vec<u8> {
        (0..length).map(|_| self.bits() as u8).collect()
    }
}

/// Patterns at which some rule changes.
#[rustfmt::skip]
pub const EDGES: [u32; 20] = [
    0, 1, 2, 3, 7, 30, 31, 32, 33, 65535, 65536,
    0x7FFF_FFFE, 0x7FFF_FFFF, 0x8000_0000, 0x8000_0001, 0x5555_5555, 0xAAAA_AAAA,
    0xFFFF_FFE0, 0xFFFF_FFFE, 0xFFFF_FFFF,
];
