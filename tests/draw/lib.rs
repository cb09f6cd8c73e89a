//! Seeded draws of what the tests feed: numbers, records, compounds, trace blocks and whole traces.
pub mod arrivals;
pub mod blocks;
pub mod breakers;
pub mod compounds;
pub mod sources;
pub mod tables;
pub mod traces;

use std::cell::Cell;

/// The splitmix64 generator.
pub struct Draw(Cell<u64>);

impl Draw {
    pub fn seeded(seed: u64) -> Draw {
        Draw(Cell::new(seed))
    }

    pub fn u64(&self) -> u64 {
        let state = self.0.get().wrapping_add(0x9E37_79B9_7F4A_7C15);
        self.0.set(state);
        let a = (state ^ state >> 30).wrapping_mul(0xBF58_476D_1CE4_E5B9);
        let b = (a ^ a >> 27).wrapping_mul(0x94D0_49BB_1331_11EB);
        b ^ b >> 31
    }

    /// A number from 0 to `limit` - 1.
    pub fn below(&self, limit: u64) -> u64 {
        (u128::from(self.u64()) * u128::from(limit) >> 64) as u64
    }

    /// A number from `low` to `high`.
    pub fn within(&self, low: u64, high: u64) -> u64 {
        low + self.below(high - low + 1)
    }

    pub fn index(&self, length: usize) -> usize {
        self.below(length as u64) as usize
    }

    pub fn one_in(&self, n: u64) -> bool {
        self.below(n) == 0
    }

    pub fn of<T: Copy>(&self, choices: &[T]) -> T {
        choices[self.index(choices.len())]
    }

    /// A number from `low` to `high`, often at an end or next to one.
    pub fn edge(&self, low: u64, high: u64) -> u64 {
        match self.below(4) {
            0 => low + self.below(3).min(high - low),
            1 => high - self.below(3).min(high - low),
            _ => self.within(low, high),
        }
    }

    /// A number that is now and then outside `low` to `high`: just outside, or of any size.
    pub fn astray(&self, low: u64, high: u64) -> u64 {
        match self.below(40) {
            0 => low.wrapping_sub(1),
            1 => high.wrapping_add(1),
            2 => self.any_size(),
            _ => self.edge(low, high),
        }
    }

    /// A number of 0 to 64 bits.
    pub fn any_size(&self) -> u64 {
        let bits = self.below(65) as u32;
        self.u64().checked_shr(64 - bits).unwrap_or(0)
    }

    pub fn bytes(&self, length: usize) -> Vec<u8> {
        (0..length).map(|_| self.u64() as u8).collect()
    }

    pub fn shuffle<T>(&self, list: &mut [T]) {
        for last in (1..list.len()).rev() {
            list.swap(last, self.index(last + 1));
        }
    }

    /// Room for an output that needs `need`: none, one short, just enough, or more.
    pub fn room(&self, need: usize) -> usize {
        match self.below(8) {
            0 => self.index(need + 1),
            1 => need.saturating_sub(1),
            2 | 3 => need,
            4 => need + 1,
            _ => need + self.index(40),
        }
    }

    /// How many words are lent for a record of `need` words: those, or now and then others.
    pub fn sized(&self, need: usize) -> usize {
        if self.one_in(8) { self.room(need) } else { need }
    }

    /// Rooms for the same output in turn, which needs `need`, not 0: one as above, or none, one short, just enough and one more.
    pub fn rooms(&self, need: usize) -> Vec<usize> {
        if self.one_in(5) {
            vec![0, need - 1, need, need + 1]
        } else {
            vec![self.room(need)]
        }
    }
}
