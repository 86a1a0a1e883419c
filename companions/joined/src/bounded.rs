//! The window of a stream for what one side sends, beside the unknown credit with which it began.

use cutter::Nanos;

use crate::evidence::{Evidence, Pause};

/// Stands for the last time of a side that has sent nothing so far.
pub const NEVER: Nanos = Nanos::MIN;

/// It is small, so that those of many streams are near.
#[derive(Clone, Debug)]
pub struct BoundedWindow {
    /// Its credit without the unknown one at its beginning, and without the initial window.
    pub credit: i64,
    /// When the other side last sent what this one may answer.
    pub spoken: Nanos,
    /// What is known of it at its bound, as soon as it was there, or if it was open at the beginning.
    pub at_bound: Option<Box<AtBound>>,
    pub is_live: bool,
    /// Whether it is live, opened since the beginning, and does not pause.
    pub is_plain: bool,
    pub is_refused: bool,
}

/// What is known of one at its bound.
#[derive(Clone, Debug)]
pub struct AtBound {
    pub pause: Option<Pause>,
    /// How many changes of the initial window the pause takes into account.
    pub change: u32,
    /// What is known of a stream that was open at the beginning: before and after the initial window changed.
    pub open: Option<Box<[Evidence; 2]>>,
    /// The bound of such a stream, as its evidence has it since the last change, and the least that its credit was.
    pub bound: i64,
    least: i64,
}

impl AtBound {
    /// A pause is given for a stream that was open at the beginning.
    pub fn new(pause: Option<Pause>) -> AtBound {
        let open = pause.is_some().then(Box::default);
        AtBound { pause, change: 0, open, bound: i64::MAX, least: 0 }
    }
}

impl BoundedWindow {
    /// The window of a stream that opens now.
    pub fn opened(is_live: bool) -> BoundedWindow {
        BoundedWindow { credit: 0, spoken: NEVER, at_bound: None, is_live, is_plain: is_live, is_refused: false }
    }

    /// The window of a stream that was open at the beginning, when its sender may have waited.
    pub fn open_since(beginning: Nanos) -> BoundedWindow {
        let at_bound = AtBound::new(Some(Pause::from_the_beginning(beginning)));
        BoundedWindow { at_bound: Some(Box::new(at_bound)), is_plain: false, ..BoundedWindow::opened(true) }
    }

    pub fn end(&mut self) {
        (self.is_live, self.is_plain) = (false, false);
        self.at_bound.iter_mut().for_each(|known| known.pause = None);
    }

    /// The other side sent HEADERS or content.
    #[inline]
    pub fn spoken(&mut self, time: Nanos) {
        self.spoken = time;
    }

    /// The other side grants so much.
    #[inline]
    pub fn grant(&mut self, time: Nanos, amount: u32) {
        if self.is_live {
            self.credit += i64::from(amount);
            let pauses = self.at_bound.iter_mut().filter_map(|known| known.pause.as_mut());
            pauses.for_each(|pause| pause.grant(time));
        }
    }

    /// Content came. Answers whether the credit is above its bound, so that nothing pauses: above `opened` if the
    /// stream opened since the beginning.
    #[inline]
    pub fn lower(&mut self, length: u32, in_force: i64, (changes, opened): (u32, i64)) -> bool {
        self.credit -= i64::from(length);
        let known = match &mut self.at_bound {
            Some(known) => &mut **known,
            None => return self.credit > opened,
        };
        let is_above = match known.open {
            Some(_) => {
                known.least = known.least.min(self.credit);
                known.change == changes && self.credit + in_force > known.bound
            }
            None => self.credit > opened,
        };
        if is_above {
            known.pause = None;
            self.is_plain = known.open.is_none();
        }
        is_above
    }

    pub fn pause(&self) -> Option<Pause> {
        self.at_bound.as_ref()?.pause
    }

    /// What tells of one that was open at the beginning.
    pub fn open(&self) -> Option<&[Evidence; 2]> {
        self.at_bound.as_ref()?.open.as_deref()
    }

    /// The least that the credit was of one that was open at the beginning.
    pub fn least(&self) -> i64 {
        self.at_bound.as_ref().map_or(0, |known| known.least)
    }
}
