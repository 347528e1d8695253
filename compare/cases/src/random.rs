//! A small generator of random numbers, the same on every machine.

/// splitmix64.
#[derive(Debug, Clone)]
pub struct Random(u64);

impl Random {
    pub fn new(seed: u64) -> Self {
        Random(seed)
    }

    pub fn bits(&mut self) -> u64 {
        self.0 = self.0.wrapping_add(0x9e37_79b9_7f4a_7c15);
        let mut z = self.0;
        z = (z ^ (z >> 30)).wrapping_mul(0xbf58_476d_1ce4_e5b9);
        z = (z ^ (z >> 27)).wrapping_mul(0x94d0_49bb_1331_11eb);
        z ^ (z >> 31)
    }

    /// A number below `n`.
    pub fn below(&mut self, n: usize) -> usize {
        (self.bits() % n as u64) as usize
    }

    /// True in `percent` of a hundred cases.
    pub fn chance(&mut self, percent: usize) -> bool {
        self.below(100) < percent
    }

    pub fn pick<T: Copy>(&mut self, from: &[T]) -> T {
        from[self.below(from.len())]
    }

    /// A float from `low` up to `high`.
    pub fn between(&mut self, low: f64, high: f64) -> f64 {
        let part = (self.bits() >> 11) as f64 / (1u64 << 53) as f64;
        low + (high - low) * part
    }

    /// A positive float whose power of two lies from `low` up to below `high`, all powers alike.
    pub fn magnitude(&mut self, low: i32, high: i32) -> f64 {
        let power = low + self.below((high - low) as usize) as i32;
        let fraction = self.bits() >> 12;
        f64::from_bits(((power + 1023) as u64) << 52 | fraction)
    }

    /// Either sign of a number.
    pub fn signed(&mut self, x: f64) -> f64 {
        if self.chance(50) { -x } else { x }
    }

    /// The number itself, or the float next to it on either side.
    pub fn ulp(&mut self, x: f64) -> f64 {
        match self.below(3) {
            0 => x.next_down(),
            1 => x,
            _ => x.next_up(),
        }
    }
}
