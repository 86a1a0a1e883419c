//! What a window's credit must have been, and what tells that it was no more.
//!
//! Content tells how much there was at least. *Touches* tell that there was no more: the sender came to the bound,
//! paused, got a grant, and went on. Touches are worth bits, and those before the bound rises are worth none.

use cutter::Nanos;

use crate::usual::Usual;

/// A pause is told from a gap from here on, and by so many gaps.
const LEAST_PAUSE: Nanos = 20_000;
const LEAST_GAPS: f64 = 2.0;
/// Content follows a grant at once within half of the pause, or so soon.
const SOON: Nanos = 200_000;
/// One shorter touch alone is worth no more than so much.
const LONG_PAUSE: Nanos = 50_000_000;
const MOST_OF_ONE: f64 = 6.0;
/// Where a bound or each content is 2^k - 1 bytes.
pub const OF_WINDOWS: f64 = 8.0;
/// What is inferred from so many bits.
pub const LIKELY: f64 = 8.0;
/// So many touches count after which content came late.
const MOST_SLOW: u8 = 4;
pub const STRONG: f64 = 16.0;

/// The sender paused at the bound of a window.
#[derive(Clone, Copy, Debug)]
pub struct Pause {
    /// Since its content of so many bytes; none where the capture began.
    since: Nanos,
    length: Option<u32>,
    is_end: bool,
    granted: Option<Nanos>,
}

impl Pause {
    /// Since the capture began.
    pub fn from_the_beginning(since: Nanos) -> Pause {
        Pause { since, length: None, is_end: false, granted: None }
    }

    /// Behind content of so many bytes, which may end its stream.
    pub fn behind(since: Nanos, length: u32, is_end: bool) -> Pause {
        Pause { since, length: Some(length), is_end, granted: None }
    }

    /// Notes a grant, of which the first counts.
    pub fn grant(&mut self, time: Nanos) {
        self.granted.get_or_insert(time);
    }

    /// From when to when it was one, where a grant ended it.
    #[inline]
    pub fn ended(&self) -> Option<(Nanos, Nanos)> {
        Some((self.since, self.granted?))
    }

    /// Whether content that comes then ends a pause that a grant ended; `spoken` is when the other side last sent
    /// something else that the content may answer.
    pub fn touch(&self, content: Nanos, spoken: Nanos) -> Option<Touch> {
        let granted = self.granted?;
        if spoken >= self.since {
            return None;
        }
        let (pause, delay) = (granted.saturating_sub(self.since), content.saturating_sub(granted));
        Some(Touch { pause, delay, length: self.length, is_end: self.is_end })
    }
}

/// A pause at a bound that a grant ended.
#[derive(Clone, Copy, Debug)]
pub struct Touch {
    pub pause: Nanos,
    /// From the grant to the next content.
    delay: Nanos,
    /// How long the content before it was, which may end its stream.
    pub length: Option<u32>,
    is_end: bool,
}

impl Touch {
    /// Whether content followed the grant at once.
    pub fn is_soon(&self) -> bool {
        self.delay <= SOON.max(self.pause / 2)
    }

    /// Whether the content before it was shorter than the longest, as what fills a window is.
    fn is_short(&self, usual: &Usual) -> bool {
        !self.is_end && self.length.map_or(false, |length| usual.is_short(length))
    }

    /// What is told by how short the content before it was.
    fn of_short(&self, usual: &Usual) -> f64 {
        match self.length {
            Some(length) if !self.is_end => usual.bits_of_short(length),
            _ => 0.0,
        }
    }

    /// What it is worth if it is the first one.
    pub fn bits(&self, usual: &Usual) -> f64 {
        let (pause, gap) = (self.pause as f64, usual.gap());
        let short = self.of_short(usual);
        if self.pause < LEAST_PAUSE || pause < LEAST_GAPS * gap || !self.is_soon() {
            return short;
        }
        let most_of_gap = if self.length.is_none() { 8.0 } else { 6.0 };
        let of_delay = (pause / self.delay.max(1) as f64).log2().clamp(0.0, 5.0);
        (pause / gap).log2().clamp(0.0, most_of_gap) + of_delay + short
    }
}

/// What is known of one window.
#[derive(Clone, Debug, Default)]
pub struct Evidence {
    /// The least that its credit came to, beside the unknown one at the beginning.
    pub low: Option<i64>,
    /// What it was before the content that came to that.
    pub before: i64,
    /// Bits that no other window explains, and those of pauses in which another one was at its bound too.
    pub alone: f64,
    pub shared: f64,
    /// The shared bits of the connection's window that are shared with this one.
    pub lent: f64,
    /// How many bounds it had, and which one of the connection's window the shared bits are about.
    pub turn: u32,
    pub of_turn: u32,
    pub touches: u32,
    pub longest: Nanos,
    last: Option<u32>,
    has_short: bool,
    slow: u8,
    /// Bits that it was used up when the capture began; and whether another window was granted in that silence too.
    pub silent: f64,
    pub is_silent_shared: bool,
    /// A bound that was passed, and its bits.
    pub passed: Option<(i64, f64)>,
}

impl Evidence {
    /// Content brought the credit here. Answers whether that is its bound, and whether a new one.
    #[inline]
    pub fn content(&mut self, before: i64, after: i64) -> Bound {
        match self.low {
            Some(low) if after > low => Bound::None,
            Some(low) if after == low => Bound::Old,
            _ => self.new_bound(before, after),
        }
    }

    #[inline(never)]
    fn new_bound(&mut self, before: i64, after: i64) -> Bound {
        if self.touches == 0 && self.silent == 0.0 {
            self.low = Some(after);
            self.before = before;
            self.turn = self.turn.wrapping_add(1);
            return Bound::New;
        }
        let bits = self.alone + self.shared;
        let passed = match self.low {
            Some(low) if bits >= LIKELY => Some((low, bits)),
            _ => self.passed,
        };
        let silent = if after >= 0 { self.silent } else { 0.0 };
        let (turn, is_silent_shared) = (self.turn.wrapping_add(1), self.is_silent_shared);
        *self = Evidence { low: Some(after), before, silent, is_silent_shared, passed, turn, ..Evidence::default() };
        Bound::New
    }

    /// What a touch is worth here, which counts it.
    pub fn worth(&mut self, touch: &Touch, usual: &Usual) -> f64 {
        let length = touch.length.unwrap_or(0);
        let is_soon = touch.is_soon();
        let bits = match self.last {
            None => touch.bits(usual),
            Some(last) if last != length && (is_soon || touch.is_short(usual)) => 5.0,
            Some(_) if is_soon && length % 1024 != 0 => 3.0,
            Some(_) if is_soon || self.slow < MOST_SLOW => 1.0,
            Some(_) => 0.0,
        };
        self.slow += u8::from(!is_soon && self.slow < MOST_SLOW);
        self.has_short |= self.last.is_none() && touch.of_short(usual) > 0.0;
        self.last = Some(length);
        self.touches = self.touches.saturating_add(1);
        self.longest = self.longest.max(touch.pause);
        bits
    }

    /// What its bits are worth, of a window whose beginning was not seen.
    pub fn if_one_is_little(&self, bits: f64) -> f64 {
        if self.touches <= 1 && self.longest < LONG_PAUSE && !self.has_short {
            bits.min(MOST_OF_ONE)
        } else {
            bits
        }
    }

    /// The least credit at the beginning with which nothing was overrun.
    pub fn least(&self) -> Option<i64> {
        self.low.map(|low| -low)
    }
}

/// Where content took a credit.
#[derive(Clone, Copy, Debug, PartialEq, Eq)]
pub enum Bound {
    /// Not to its bound.
    None,
    /// To the bound that was known.
    Old,
    /// Below that.
    New,
}

#[cfg(test)]
mod tests {
    use super::*;

    const MS: Nanos = 1_000_000;

    /// A sender whose contents come a microsecond apart.
    fn usual() -> Usual {
        let mut usual = Usual::default();
        (0..100).for_each(|at| usual.content(at * 1024, at * 1024, 1000));
        usual
    }

    fn touch(pause: Nanos, delay: Nanos, spoken: Nanos) -> Option<Touch> {
        let mut one = Pause::behind(0, 1000, false);
        one.grant(pause);
        one.grant(pause + 1);
        one.touch(pause + delay, spoken)
    }

    fn bits(pause: Nanos, delay: Nanos) -> Option<f64> {
        touch(pause, delay, Nanos::MIN).map(|touch| touch.bits(&usual()))
    }

    #[test]
    fn pauses_that_a_grant_ended() {
        assert_eq!(bits(MS, 1000), Some(6.0 + 5.0));
        assert_eq!(bits(19_999, 10), Some(0.0), "no pause");
        assert!(bits(20_480, 10_240).map_or(false, |bits| (5.0..5.5).contains(&bits)));
        assert_eq!(bits(100 * MS, 60 * MS), Some(0.0), "content came late");
        assert_eq!(bits(100 * MS, 50 * MS), Some(7.0));
        assert_eq!(Pause::behind(0, 9, false).touch(MS, Nanos::MIN).map(|touch| touch.pause), None, "no grant");
        assert!(touch(MS, 1, 0).is_none() && touch(MS, 1, -1).is_some(), "an answer");
    }

    #[test]
    fn a_touch_is_worth_more_the_first_time() {
        let mut evidence = Evidence::default();
        assert_eq!(evidence.content(0, -100), Bound::New);
        let of = |length, delay| {
            let mut pause = Pause::behind(0, length, false);
            pause.grant(MS);
            pause.touch(MS + delay, Nanos::MIN).expect("a touch")
        };
        let found: Vec<_> = [of(999, 1), of(999, 1), of(2048, 1), of(2048, 1), of(77, 600_000), of(77, 600_000)]
            .iter()
            .map(|touch| evidence.worth(touch, &usual()))
            .collect();
        assert_eq!(found, [11.0, 3.0, 5.0, 1.0, 5.0, 1.0]);
        assert_eq!(evidence.touches, 6);
    }

    #[test]
    fn what_raises_the_bound_makes_evidence_void() {
        let mut evidence = Evidence::default();
        evidence.content(0, -100);
        (evidence.alone, evidence.touches) = (9.0, 2);
        assert_eq!(evidence.content(-50, -99), Bound::None);
        assert_eq!(evidence.content(-50, -100), Bound::Old);
        assert_eq!((evidence.alone, evidence.least()), (9.0, Some(100)));
        assert_eq!(evidence.content(-50, -101), Bound::New);
        assert_eq!((evidence.alone, evidence.least(), evidence.passed), (0.0, Some(101), Some((-100, 9.0))));
        assert_eq!(evidence.before, -50);
    }

    #[test]
    fn one_short_touch_is_little() {
        let mut evidence = Evidence { touches: 1, longest: LONG_PAUSE - 1, ..Evidence::default() };
        assert_eq!(evidence.if_one_is_little(11.0), 6.0);
        evidence.touches = 2;
        assert_eq!(evidence.if_one_is_little(14.0), 14.0);
        evidence = Evidence { touches: 1, longest: LONG_PAUSE, ..Evidence::default() };
        assert_eq!(evidence.if_one_is_little(11.0), 11.0);
    }
}
