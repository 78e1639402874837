//! Numbers that look random and come out the same for the same seed.

/// Marsaglia's xorshift, 64 bits wide.
#[derive(Clone, Debug)]
pub struct Random(u64);

impl Random {
    /// The stream of this seed. Seeds that lie close together give unlike streams.
    pub fn new(seed: u64) -> Random {
        let state = seed.wrapping_mul(0x9e37_79b9_7f4a_7c15) ^ 0x2545_f491_4f6c_dd1d;
        let mut random = Random(state.max(1));
        for _ in 0..8 {
            random.draw();
        }
        random
    }

    pub fn draw(&mut self) -> u64 {
        self.0 ^= self.0 << 13;
        self.0 ^= self.0 >> 7;
        self.0 ^= self.0 << 17;
        self.0
    }

    /// A number below `limit`, which is at least 1.
    pub fn below(&mut self, limit: usize) -> usize {
        ((self.draw() >> 32) as usize) % limit
    }

    /// True once in `times` calls, on average.
    pub fn once_in(&mut self, times: usize) -> bool {
        self.below(times) == 0
    }

    pub fn word(&mut self) -> u16 {
        (self.draw() >> 40) as u16
    }

    pub fn byte(&mut self) -> u8 {
        (self.draw() >> 40) as u8
    }

    /// One of the values, each as likely as the next.
    pub fn of<T: Copy>(&mut self, values: &[T]) -> T {
        values[self.below(values.len())]
    }
}
