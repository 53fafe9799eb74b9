//! Random numbers from a seed (splitmix64): the same seed, the same numbers, on any machine.

#[derive(Debug, Clone)]
pub struct Rng(u64);

impl Rng {
    pub fn new(seed: u64) -> Self {
        Rng(seed)
    }

    pub fn next(&mut self) -> u64 {
        self.0 = self.0.wrapping_add(0x9E37_79B9_7F4A_7C15);
        let mut z = self.0;
        z = (z ^ (z >> 30)).wrapping_mul(0xBF58_476D_1CE4_E5B9);
        z = (z ^ (z >> 27)).wrapping_mul(0x94D0_49BB_1331_11EB);
        z ^ (z >> 31)
    }

    /// 0 to `below` - 1.
    pub fn below(&mut self, below: usize) -> usize {
        ((self.next() >> 32) as usize * below) >> 32
    }

    /// True once in `out_of` times.
    pub fn once_in(&mut self, out_of: usize) -> bool {
        self.below(out_of) == 0
    }

    pub fn pick<T: Copy>(&mut self, from: &[T]) -> T {
        from[self.below(from.len())]
    }

    /// Any bits at all.
    pub fn bits(&mut self) -> f32 {
        f32::from_bits(self.next() as u32)
    }

    /// Evenly between `low` and `high`, both within reach.
    pub fn between(&mut self, low: f32, high: f32) -> f32 {
        let share = (self.next() >> 40) as f64 / 16_777_215.0;
        let number = f64::from(low) + (f64::from(high) - f64::from(low)) * share;
        (number as f32).clamp(low, high)
    }

    /// Either sign, its size even over the powers of two from 2^`low` to 2^`high`.
    pub fn scaled(&mut self, low: i32, high: i32) -> f32 {
        let exponent = low + self.below((high - low) as usize) as i32 + 127;
        let random = self.next() as u32;
        f32::from_bits((random & 0x807F_FFFF) | ((exponent as u32) << 23))
    }
}
