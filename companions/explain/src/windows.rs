//! The credit of windows, by the rules of the audit (RFC 9113, 5.2 and 6.9; docs/AUDIT_RULES.md, 8).

pub use cutter::{FIRST_CREDIT, MOST_CREDIT};

/// The initial window in force for what a side sends. A change moves the windows of all its streams, which therefore
/// count beside it.
#[derive(Clone, Debug)]
pub struct Initial {
    pub value: i64,
    /// How often it changed; and the changes after which it never was higher, with their numbers.
    changes: u32,
    highest: Vec<(u32, i64)>,
}

impl Default for Initial {
    fn default() -> Initial {
        Initial { value: FIRST_CREDIT, changes: 0, highest: Vec::new() }
    }
}

impl Initial {
    pub fn change(&mut self, value: i64) {
        self.value = value;
        self.changes += 1;
        while self.highest.last().map_or(false, |last| last.1 <= value) {
            self.highest.pop();
        }
        self.highest.push((self.changes, value));
    }

    /// The highest since this change.
    fn highest_since(&self, change: u32) -> Option<i64> {
        let at = self.highest.partition_point(|one| one.0 <= change);
        self.highest.get(at).map(|one| one.1)
    }
}

/// The window of a stream for what one side sends.
#[derive(Clone, Debug, Default, PartialEq, Eq)]
pub struct CountedWindow {
    pub is_live: bool,
    /// Whether it ever was.
    pub was_live: bool,
    /// Its credit without the initial window in force, while it is live; then what it was at its end.
    pub credit: i64,
    /// The most credit from before the first content on, up to a change of the initial window.
    pub largest: Option<i64>,
    /// The credit before the first content.
    pub first: Option<i64>,
    pub change: u32,
}

impl CountedWindow {
    pub fn open(&mut self, initial: &Initial) {
        *self = CountedWindow { is_live: true, was_live: true, change: initial.changes, ..CountedWindow::default() };
    }

    /// Its credit, or the last that it had; none where it never was live.
    #[inline]
    pub fn value(&self, initial: &Initial) -> Option<i64> {
        let beside = if self.is_live { initial.value } else { 0 };
        self.was_live.then_some(self.credit + beside)
    }

    /// Its side sent content.
    #[inline]
    pub fn content(&mut self, initial: &Initial, length: u32) {
        if self.largest.is_none() {
            self.largest = self.value(initial);
            self.first = self.largest;
            self.change = initial.changes;
        }
        self.look(initial);
        if self.is_live {
            self.credit -= i64::from(length);
        }
    }

    /// The other side grants so much. Answers the credit that would be too high, with which it ends.
    pub fn grant(&mut self, initial: &Initial, amount: u32) -> Option<i64> {
        if !self.is_live {
            return None;
        }
        self.look(initial);
        let credit = self.credit + initial.value + i64::from(amount);
        if credit > MOST_CREDIT {
            self.end(initial);
            return Some(credit);
        }
        self.credit += i64::from(amount);
        self.largest = self.largest.map(|largest| largest.max(credit));
        None
    }

    /// All that was before is not told: what it is now is the most that it had.
    pub fn begin_anew(&mut self, initial: &Initial) {
        (self.largest, self.first, self.change) = (None, None, initial.changes);
    }

    pub fn end(&mut self, initial: &Initial) {
        if self.is_live {
            self.look(initial);
            self.credit += initial.value;
            self.is_live = false;
        }
    }

    /// Looks how high it was since the last look.
    #[inline]
    pub fn look(&mut self, initial: &Initial) {
        if self.change != initial.changes {
            self.look_back(initial);
        }
    }

    #[inline(never)]
    fn look_back(&mut self, initial: &Initial) {
        if let (true, Some(largest)) = (self.is_live, self.largest) {
            let highest = initial.highest_since(self.change).map_or(largest, |highest| self.credit + highest);
            self.largest = Some(largest.max(highest));
        }
        self.change = initial.changes;
    }
}

/// The window of a connection for what one side sends.
#[derive(Clone, Copy, Debug)]
pub struct ConnectionWindow {
    pub credit: i64,
    /// The most from before the first content on, and what it was then.
    pub largest: Option<i64>,
    pub first: Option<i64>,
}

impl Default for ConnectionWindow {
    fn default() -> ConnectionWindow {
        ConnectionWindow { credit: FIRST_CREDIT, largest: None, first: None }
    }
}

impl ConnectionWindow {
    /// DATA came, of which so much counts.
    #[inline]
    pub fn content(&mut self, length: u32) {
        if self.first.is_none() {
            self.largest = self.largest.or(Some(self.credit));
            self.first = self.largest;
        }
        self.credit -= i64::from(length);
    }

    /// An overflow is no end of it.
    #[inline]
    pub fn grant(&mut self, amount: u32) {
        self.credit += i64::from(amount);
        self.largest = self.largest.map(|largest| largest.max(self.credit));
    }
}

#[cfg(test)]
mod tests {
    use super::*;

    #[test]
    fn credit_moves_with_the_initial_window() {
        let mut initial = Initial::default();
        let mut window = CountedWindow::default();
        assert_eq!(window.value(&initial), None);
        window.open(&initial);
        initial.change(10);
        window.content(&initial, 15);
        assert_eq!((window.value(&initial), window.largest), (Some(-5), Some(10)));
        initial.change(100);
        initial.change(50);
        assert_eq!(window.value(&initial), Some(35));
        window.look(&initial);
        assert_eq!(window.largest, Some(85));
        assert_eq!(window.grant(&initial, 6), None);
        initial.change(200);
        window.end(&initial);
        initial.change(900);
        assert_eq!((window.value(&initial), window.largest), (Some(191), Some(191)));
        assert_eq!(window.grant(&initial, 1), None);
        assert_eq!(window.value(&initial), Some(191));
    }

    #[test]
    fn a_grant_that_is_too_high_ends_it() {
        let initial = Initial::default();
        let mut window = CountedWindow::default();
        window.open(&initial);
        assert_eq!(window.grant(&initial, MOST_CREDIT as u32), Some(MOST_CREDIT + FIRST_CREDIT));
        window.content(&initial, 5);
        assert_eq!(window.value(&initial), Some(FIRST_CREDIT));
    }

    #[test]
    fn the_highest_since() {
        let mut initial = Initial::default();
        [5, 9, 7, 7, 1].into_iter().for_each(|value| initial.change(value));
        let found: Vec<_> = (0..6).map(|change| initial.highest_since(change)).collect();
        assert_eq!(found, [Some(9), Some(9), Some(7), Some(7), Some(1), None]);
    }

    #[test]
    fn a_connection_begins_with_65535() {
        let mut window = ConnectionWindow::default();
        window.grant(10);
        window.content(100);
        window.grant(50);
        assert_eq!((window.credit, window.largest), (65_495, Some(65_545)));
    }
}
