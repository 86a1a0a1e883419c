//! Tables by numbers of streams.

use std::collections::hash_map::RandomState;
use std::hash::{BuildHasher, Hasher};

/// Hashes numbers of streams by a factor that nobody knows before.
#[derive(Clone, Copy, Debug)]
pub struct Numbers {
    factor: u64,
}

pub struct NumberHasher {
    factor: u64,
    hash: u64,
}

impl Numbers {
    pub fn new() -> Numbers {
        Numbers { factor: RandomState::new().build_hasher().finish() | 1 }
    }
}

impl BuildHasher for Numbers {
    type Hasher = NumberHasher;

    #[inline]
    fn build_hasher(&self) -> NumberHasher {
        NumberHasher { factor: self.factor, hash: 0 }
    }
}

impl Hasher for NumberHasher {
    #[inline]
    fn finish(&self) -> u64 {
        self.hash ^ self.hash >> 32
    }

    fn write(&mut self, bytes: &[u8]) {
        bytes.iter().for_each(|byte| self.write_u32(u32::from(*byte)));
    }

    #[inline]
    fn write_u32(&mut self, number: u32) {
        self.write_u64(u64::from(number));
    }

    #[inline]
    fn write_u64(&mut self, number: u64) {
        self.hash = (self.hash.rotate_left(32) ^ number).wrapping_add(1).wrapping_mul(self.factor);
    }

    #[inline]
    fn write_usize(&mut self, number: usize) {
        self.write_u64(number as u64);
    }

    #[inline]
    fn write_isize(&mut self, number: isize) {
        self.write_u64(number as u64);
    }
}

impl Default for Numbers {
    fn default() -> Numbers {
        Numbers::new()
    }
}
