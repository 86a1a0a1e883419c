//! What is usual of a sender's content: the gaps in which nothing was granted, and lengths.

use cutter::Nanos;

/// The gap that counts as usual where none was seen.
const FIRST_GAP: f64 = 1_000_000.0;

/// Bounded, however much comes.
#[derive(Clone, Debug)]
pub struct Usual {
    /// How many gaps there were, by log2 of their nanoseconds.
    gaps: [u32; 64],
    last: Option<Nanos>,
    /// The longest content, and below which length one is short; how many contents are about as long, and shorter.
    longest: u32,
    long: u32,
    lengths: [u32; 2],
    /// Whether all contents are 2^k - 1 bytes.
    are_windows: bool,
}

impl Default for Usual {
    fn default() -> Usual {
        Usual { gaps: [0; 64], last: None, longest: 0, long: 0, lengths: [0; 2], are_windows: true }
    }
}

/// Whether a number is 2^k - 1 and more than 1,000, as windows often are.
pub fn is_window(number: i64) -> bool {
    number >= 1023 && number & (number + 1) == 0
}

/// The logarithm of a time; no time is shorter than one nanosecond.
#[inline]
fn log2_of(time: Nanos) -> usize {
    63 & !(time.max(1) as u64).leading_zeros() as usize
}

impl Usual {
    /// Content came, the first bytes of it and the last.
    pub fn content(&mut self, first: Nanos, last: Nanos, length: u32) {
        self.times(first, last, 1);
        self.length(length);
    }

    /// Contents came, one or more, all but the first of which have the time of the last.
    #[inline]
    pub fn times(&mut self, first: Nanos, last: Nanos, contents: u32) {
        if let Some(before) = self.last.replace(last) {
            self.gaps[log2_of(first.saturating_sub(before))] += 1;
        }
        self.gaps[log2_of(0)] += contents - 1;
    }

    /// Notes the length of content.
    #[inline]
    pub fn length(&mut self, length: u32) {
        if self.are_windows {
            self.are_windows = is_window(i64::from(length));
        }
        if length > self.longest {
            self.lengthen(length);
        }
        self.lengths[usize::from(self.is_short(length))] += 1;
    }

    pub fn longest(&self) -> u32 {
        self.longest
    }

    /// Notes content that is the longest so far.
    #[inline(never)]
    fn lengthen(&mut self, length: u32) {
        let before = std::mem::replace(&mut self.longest, length);
        self.long = length - length / 4;
        if self.is_short(before) {
            self.lengths[1] += std::mem::take(&mut self.lengths[0]);
        }
    }

    /// Something was granted to the sender: its next content may have waited for that.
    pub fn grant(&mut self) {
        self.last = None;
    }

    /// The median of gaps, in nanoseconds.
    pub fn gap(&self) -> f64 {
        let mut rest = self.count() / 2;
        for (power, count) in self.gaps.iter().enumerate() {
            match rest.checked_sub(*count) {
                Some(left) => rest = left,
                None => return f64::from(power as u32).exp2(),
            }
        }
        FIRST_GAP
    }

    fn count(&self) -> u32 {
        self.gaps.iter().sum()
    }

    /// What it tells that content is so short: bits, where short content is rare.
    pub fn bits_of_short(&self, length: u32) -> f64 {
        let [full, short] = self.lengths.map(f64::from);
        if !self.is_short(length) || self.lengths[1] == 0 {
            return 0.0;
        }
        ((short + full) / short).log2().clamp(0.0, 5.0)
    }

    /// Whether content is less than three quarters of the longest.
    #[inline]
    pub fn is_short(&self, length: u32) -> bool {
        length < self.long
    }

    pub fn are_windows(&self) -> bool {
        self.are_windows && self.longest > 0
    }
}

#[cfg(test)]
mod tests {
    use super::*;

    #[test]
    fn gaps_without_grants() {
        let mut usual = Usual::default();
        assert_eq!(usual.gap(), FIRST_GAP);
        for (time, granted) in [(0, false), (1000, false), (2000, true), (900_000, false), (901_000, false)] {
            usual.content(time, time, 10);
            if granted {
                usual.grant();
            }
        }
        assert_eq!((usual.gap(), usual.count()), (512.0, 3));
    }

    #[test]
    fn short_content() {
        let mut usual = Usual::default();
        (0..31).for_each(|time| usual.content(time, time, 1000));
        assert_eq!(usual.bits_of_short(10), 0.0, "none was seen");
        usual.content(31, 31, 10);
        assert_eq!((usual.bits_of_short(10), usual.bits_of_short(1000)), (5.0, 0.0));
        assert_eq!(usual.bits_of_short(750), 0.0, "not much shorter");
        usual.content(32, 32, 2000);
        assert!(usual.bits_of_short(1000) < 0.1);
    }

    #[test]
    fn windows() {
        let found: Vec<_> = [1022, 1023, 1024, 65_535, 65_536, 0, -1].into_iter().map(is_window).collect();
        assert_eq!(found, [false, true, false, true, false, false, false]);
        let mut usual = Usual::default();
        assert!(!usual.are_windows());
        usual.content(0, 0, 16_383);
        assert!(usual.are_windows());
        usual.content(0, 0, 100);
        assert!(!usual.are_windows());
    }
}
