//! Mutated inputs for tests: MUTATIONS in the environment says how many, SEED which. A failure names its number and the
//! seed, and MUTATIONS=N:N+1 makes that one again.

#![forbid(unsafe_code)]

use std::env;
use std::panic::{catch_unwind, AssertUnwindSafe};
use std::time::{SystemTime, UNIX_EPOCH};

/// Numbers by chance, the same for the same seed.
pub struct Dice(u64);

impl Dice {
    pub fn of(seed: u64, number: u64) -> Dice {
        let mut dice = Dice(seed ^ number.wrapping_mul(0x9E37_79B9_7F4A_7C15) | 1);
        for _ in 0..8 {
            dice.below(2);
        }
        dice
    }

    pub fn below(&mut self, end: usize) -> usize {
        self.0 ^= self.0 << 13;
        self.0 ^= self.0 >> 7;
        self.0 ^= self.0 << 17;
        (self.0.wrapping_mul(0x2545_F491_4F6C_DD1D) >> 33) as usize % end
    }

    pub fn of_these<'a, T>(&mut self, these: &'a [T]) -> &'a T {
        &these[self.below(these.len())]
    }
}

/// Bytes with a few changes: flipped, set to something of interest, cut out, doubled, filled, or the end cut off.
pub fn changed(data: &[u8], dice: &mut Dice, interesting: &[&[u8]]) -> Vec<u8> {
    let mut data = data.to_vec();
    for _ in 0..*dice.of_these(&[1, 1, 2, 5, 20]) {
        if data.is_empty() {
            break;
        }
        let at = dice.below(data.len());
        let end = (at + dice.of_these(&[1, 2, 4, 16, 100, 1500])).min(data.len());
        match dice.below(6) {
            0 => data[at] ^= 1 << dice.below(8),
            1 => {
                let value = *dice.of_these(interesting);
                let end = (at + value.len()).min(data.len());
                data.splice(at..end, value.iter().copied());
            }
            2 => drop(data.drain(at..end)),
            3 => {
                let part = data[at..end].to_vec();
                data.splice(at..at, part);
            }
            4 => data[at..end].iter_mut().for_each(|byte| *byte = dice.below(256) as u8),
            _ => data.truncate(at.max(data.len() / 8)),
        }
    }
    data
}

/// Tries so many mutations, unless the environment says how many.
pub fn each(count: u64, mut try_one: impl FnMut(&mut Dice)) {
    let count = env::var("MUTATIONS").unwrap_or_else(|_| count.to_string());
    let (first, last) = count.split_once(':').unwrap_or(("0", &count));
    let (first, last): (u64, u64) = (first.parse().expect("a number"), last.parse().expect("a number"));
    let now = SystemTime::now().duration_since(UNIX_EPOCH).map_or(1, |now| now.as_nanos() as u64);
    let seed = env::var("SEED").map_or(now, |seed| seed.parse().expect("a number"));
    for number in first..last {
        let mut dice = Dice::of(seed, number);
        let tried = catch_unwind(AssertUnwindSafe(|| try_one(&mut dice)));
        assert!(tried.is_ok(), "mutation {number} of seed {seed}");
    }
}
