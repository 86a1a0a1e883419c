//! Tables by the ends of connections.

use std::collections::hash_map::RandomState;
use std::hash::{BuildHasher, Hasher};

/// Hashes the ends of connections, which all are as long, with keys that nobody knows before.
#[derive(Clone, Copy)]
pub struct EndsHashing {
    keys: [u64; 2],
}

pub struct EndsHasher {
    hash: u64,
    key: u64,
}

impl Default for EndsHashing {
    fn default() -> EndsHashing {
        EndsHashing { keys: [(); 2].map(|()| RandomState::new().build_hasher().finish()) }
    }
}

impl BuildHasher for EndsHashing {
    type Hasher = EndsHasher;

    #[inline]
    fn build_hasher(&self) -> EndsHasher {
        let [hash, key] = self.keys;
        EndsHasher { hash, key: key | 1 }
    }
}

impl Hasher for EndsHasher {
    #[inline]
    fn finish(&self) -> u64 {
        self.hash
    }

    #[inline]
    fn write(&mut self, bytes: &[u8]) {
        let mut eights = bytes.chunks_exact(8);
        for eight in &mut eights {
            self.write_u64(eight.try_into().map_or(0, u64::from_le_bytes));
        }
        let mut fours = eights.remainder().chunks_exact(4);
        for four in &mut fours {
            self.write_u64(four.try_into().map_or(0, |four| u64::from(u32::from_le_bytes(four))));
        }
        fours.remainder().iter().for_each(|byte| self.write_u64(u64::from(*byte)));
    }

    /// Both halves of the product count, so that each bit of a number moves all of the hash.
    #[inline]
    fn write_u64(&mut self, number: u64) {
        let product = u128::from(self.hash ^ number) * u128::from(self.key);
        self.hash = product as u64 ^ (product >> 64) as u64;
    }

    /// Passes over a length, which is always the same.
    #[inline]
    fn write_usize(&mut self, _length: usize) {}
}
