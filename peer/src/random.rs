//! Random numbers that repeat: those of a seed and a round are always the same (splitmix64).

use std::cell::Cell;

pub struct Random {
    state: Cell<u64>,
}

fn mix(mut z: u64) -> u64 {
    z = (z ^ z >> 30).wrapping_mul(0xbf58_476d_1ce4_e5b9);
    z = (z ^ z >> 27).wrapping_mul(0x94d0_49bb_1331_11eb);
    z ^ z >> 31
}

impl Random {
    pub fn of(seed: u64, round: u64) -> Self {
        Random { state: Cell::new(mix(seed ^ mix(round.wrapping_add(0x9e37_79b9_7f4a_7c15)))) }
    }

    pub fn next(&self) -> u64 {
        self.state.set(self.state.get().wrapping_add(0x9e37_79b9_7f4a_7c15));
        mix(self.state.get())
    }

    /// 0 to `end` - 1.
    pub fn below(&self, end: usize) -> usize {
        (self.next() % end as u64) as usize
    }

    /// `start` to `end`, both in.
    pub fn between(&self, start: i64, end: i64) -> i64 {
        let span = (end as i128 - start as i128 + 1) as u128;
        (start as i128 + (self.next() as u128 % span) as i128) as i64
    }

    /// True once in `times`.
    pub fn once_in(&self, times: usize) -> bool {
        self.below(times) == 0
    }

    pub fn pick<T: Copy>(&self, from: &[T]) -> T {
        from[self.below(from.len())]
    }

    pub fn byte(&self) -> u8 {
        self.next() as u8
    }

    pub fn bytes(&self, length: usize) -> Vec<u8> {
        (0..length).map(|_| self.byte()).collect()
    }

    pub fn array<const LENGTH: usize>(&self) -> [u8; LENGTH] {
        std::array::from_fn(|_| self.byte())
    }
}
