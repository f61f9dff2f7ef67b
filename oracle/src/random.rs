//! Random numbers: one small generator, the same on every machine for the same seed.

use std::cell::Cell;

/// The splitmix64 generator.
pub struct Random {
    state: Cell<u64>,
}

impl Random {
    pub fn new(seed: u64) -> Random {
        Random { state: Cell::new(seed) }
    }

    pub fn next(&self) -> u64 {
        let mut z = self.state.get().wrapping_add(0x9E37_79B9_7F4A_7C15);
        self.state.set(z);
        z = (z ^ (z >> 30)).wrapping_mul(0xBF58_476D_1CE4_E5B9);
        z = (z ^ (z >> 27)).wrapping_mul(0x94D0_49BB_1331_11EB);
        z ^ (z >> 31)
    }

    /// A number below `n`.
    pub fn below(&self, n: u64) -> u64 {
        self.next() % n
    }

    /// A number in `low..=high`.
    pub fn within(&self, low: i64, high: i64) -> i64 {
        low + self.below((high - low + 1) as u64) as i64
    }

    /// A size in `low..=high`.
    pub fn size(&self, low: usize, high: usize) -> usize {
        self.within(low as i64, high as i64) as usize
    }

    /// True once in `n` times.
    pub fn once_in(&self, n: u64) -> bool {
        self.below(n) == 0
    }

    /// One of the items.
    pub fn one_of<T: Copy>(&self, items: &[T]) -> T {
        items[self.below(items.len() as u64) as usize]
    }

    /// `n` sample numbers, each below `limit`.
    pub fn list(&self, n: usize, limit: u64) -> Vec<u64> {
        (0..n).map(|_| self.below(limit)).collect()
    }
}
