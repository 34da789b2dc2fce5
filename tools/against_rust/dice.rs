//! A small random source (splitmix64), the same on every machine for the same seed.
#![allow(dead_code)]

pub struct Dice(u64);

impl Dice {
    pub fn new(seed: u64) -> Dice {
        Dice(seed)
    }

    pub fn word(&mut self) -> u64 {
        self.0 = self.0.wrapping_add(0x9e37_79b9_7f4a_7c15);
        let mut z = self.0;
        z = (z ^ (z >> 30)).wrapping_mul(0xbf58_476d_1ce4_e5b9);
        z = (z ^ (z >> 27)).wrapping_mul(0x94d0_49bb_1331_11eb);
        z ^ (z >> 31)
    }

    /// A number from 0 to n - 1.
    pub fn below(&mut self, n: u64) -> u64 {
        self.word() % n
    }

    pub fn one_in(&mut self, n: u64) -> bool {
        self.below(n) == 0
    }

    pub fn pick<T: Copy>(&mut self, from: &[T]) -> T {
        from[self.below(from.len() as u64) as usize]
    }

    /// A number from low to high.
    pub fn between(&mut self, low: f64, high: f64) -> f64 {
        low + (high - low) * (self.word() >> 11) as f64 / (1u64 << 53) as f64
    }

    /// The number itself or one up to two steps of the last bit away.
    pub fn beside(&mut self, x: f64) -> f64 {
        match self.below(6) {
            0 => x.next_up(),
            1 => x.next_down(),
            2 => x.next_up().next_up(),
            3 => x.next_down().next_down(),
            _ => x,
        }
    }

    /// One of the numbers or one beside it.
    pub fn beside_one_of(&mut self, from: &[f64]) -> f64 {
        let x = self.pick(from);
        self.beside(x)
    }

    /// A float that no range is meant to hold: NaN of any bits, infinite, huge or tiny.
    pub fn odd(&mut self) -> f64 {
        match self.below(8) {
            0 => f64::from_bits(0x7ff0_0000_0000_0001 | self.word() >> 12),
            1 => f64::from_bits(0xfff0_0000_0000_0001 | self.word() >> 12),
            2 => f64::NAN,
            3 => f64::INFINITY,
            4 => f64::NEG_INFINITY,
            5 => self.pick(&[f64::MAX, f64::MIN, 1e300, -1e300]),
            6 => f64::from_bits(self.word() >> 12),
            _ => -f64::from_bits(self.word() >> 12),
        }
    }

    /// Any number a mode or an override may carry, the telling ones often.
    pub fn number(&mut self) -> i64 {
        match self.below(8) {
            0 => self.pick(&[i64::MIN, i64::MAX, i64::MIN + 1, i64::MAX - 1]),
            1 => self.pick(&[1 << 32 | 1, 1 << 32 | 2, 257, 258, -3, -2, 1 << 63 | 1]),
            2 => self.word() as i64,
            _ => self.pick(&[-1, 0, 1, 2, 3, 4, 5]),
        }
    }
}
