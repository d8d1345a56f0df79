//! A fixed sequence of random words for each seed, the same on every machine, and floats from it.

pub struct Random(u64);

pub const TINY: f64 = f64::from_bits(1);

/// The bits that are not finite: two infinities and four NaNs.
pub const BAD: [f64; 6] = [
    f64::INFINITY,
    f64::NEG_INFINITY,
    f64::from_bits(0x7FF8000000000000),
    f64::from_bits(0xFFF8000000000000),
    f64::from_bits(0x7FF0000000000001),
    f64::from_bits(0xFFFFFFFFFFFFFFFF),
];

impl Random {
    pub fn new(seed: u64) -> Random {
        Random(seed)
    }

    /// SplitMix64.
    pub fn word(&mut self) -> u64 {
        self.0 = self.0.wrapping_add(0x9E3779B97F4A7C15);
        let mut z = self.0;
        z = (z ^ (z >> 30)).wrapping_mul(0xBF58476D1CE4E5B9);
        z = (z ^ (z >> 27)).wrapping_mul(0x94D049BB133111EB);
        z ^ (z >> 31)
    }

    pub fn below(&mut self, n: u64) -> u64 {
        self.word() % n
    }

    pub fn one_in(&mut self, n: u64) -> bool {
        self.below(n) == 0
    }

    pub fn pick<T: Copy>(&mut self, from: &[T]) -> T {
        from[self.below(from.len() as u64) as usize]
    }

    /// In (0, 1).
    pub fn unit(&mut self) -> f64 {
        (self.word() >> 11 | 1) as f64 / (1u64 << 53) as f64
    }

    /// Positive, with an exponent of two from `low` to `high`.
    pub fn sized(&mut self, low: i32, high: i32) -> f64 {
        let exponent = 1023 + low + self.below((high - low + 1) as u64) as i32;
        f64::from_bits((exponent as u64) << 52 | self.word() >> 12)
    }

    /// The same, of either sign.
    pub fn signed(&mut self, low: i32, high: i32) -> f64 {
        let x = self.sized(low, high);
        if self.one_in(2) { -x } else { x }
    }

    /// Any finite bits.
    pub fn finite(&mut self) -> f64 {
        loop {
            let x = f64::from_bits(self.word());
            if x.is_finite() {
                return x;
            }
        }
    }

    /// x, or the float just below or above it in its bits' order.
    pub fn near(&mut self, x: f64) -> f64 {
        let y = match self.below(4) {
            0 => f64::from_bits(x.to_bits().wrapping_add(1)),
            1 => f64::from_bits(x.to_bits().saturating_sub(1)),
            _ => x,
        };
        if y.is_finite() { y } else { x }
    }
}
