//! Stalls that do not show where the bytes arrive, since what is granted there is known to the sender half a round trip
//! later, and what it sends then comes half a round trip after that.

use std::collections::VecDeque;

use crate::answer::Nanos;
use crate::intervals::Interval;
use crate::windows::FIRST_CREDIT;

/// Pauses of a side that began with its credit used up, where a grant counts a round trip after it was sent.
///
/// A pause of less than an eighth of a round trip is none.
#[derive(Clone, Debug, PartialEq, Eq)]
pub struct Unshown {
    round_trip: Nanos,
    /// Before all content and all grants that count; none before the first content.
    credit: Option<i64>,
    /// What was granted, and is not known to the sender yet; and all of it together.
    grants: VecDeque<(Nanos, i64)>,
    granted: i64,
    /// When a pause began without credit.
    pub since: Option<Nanos>,
}

impl Unshown {
    pub fn new(round_trip: Nanos) -> Unshown {
        Unshown { round_trip, credit: None, grants: VecDeque::new(), granted: 0, since: None }
    }

    /// The connection's, whose first credit is known before all.
    pub fn of_connection(round_trip: Nanos) -> Unshown {
        Unshown { credit: Some(FIRST_CREDIT), ..Unshown::new(round_trip) }
    }

    /// One that is over but for a pause that began before its end.
    pub fn waiting(round_trip: Nanos, since: Option<Nanos>) -> Unshown {
        Unshown { since, credit: Some(0), ..Unshown::new(round_trip) }
    }

    /// Grants that are counted too late would make stalls.
    fn known(&self) -> Nanos {
        self.round_trip - self.round_trip / 20
    }

    pub fn grant(&mut self, time: Nanos, amount: u32, is_in_order: bool) {
        let amount = i64::from(amount);
        self.granted += amount;
        self.grants.push_back((time, amount));
        if is_in_order {
            self.join(time);
        }
    }

    /// Grants that are known to the sender by this time are one.
    fn join(&mut self, time: Nanos) {
        let known = self.known();
        while let (Some(&first), Some(&second)) = (self.grants.front(), self.grants.get(1)) {
            if second.0 > time.saturating_sub(known) {
                break;
            }
            self.grants.pop_front();
            self.grants[0] = (second.0, first.1 + second.1);
        }
    }

    /// DATA of so many bytes came, between these times; `credit` is what the window held before it. Answers the pause
    /// that it ended.
    pub fn content(&mut self, (first, last): Interval, length: u32, credit: Option<i64>) -> Option<Interval> {
        let long = |since: &Nanos| first.saturating_sub(*since) > self.round_trip / 8;
        let ended = self.since.filter(long).map(|since| (since, first));
        let granted = self.granted;
        let mut now = self.credit.unwrap_or_else(|| credit.map_or(0, |credit| credit - granted));
        let known = last.saturating_sub(self.known());
        while self.grants.front().map_or(false, |grant| grant.0 <= known) {
            now += self.grants.pop_front().map_or(0, |grant| grant.1);
        }
        now -= i64::from(length);
        self.credit = Some(now);
        self.since = (now <= 0).then_some(last);
        ended
    }
}

#[cfg(test)]
mod tests {
    use super::*;

    #[test]
    fn a_grant_counts_a_round_trip_later() {
        let mut one = Unshown::new(100);
        assert_eq!(one.content((0, 5), 60, Some(100)), None);
        assert_eq!(one.content((5, 10), 40, None), None);
        one.grant(10, 70, true);
        assert_eq!(one.content((90, 104), 5, None), Some((10, 90)));
        assert_eq!(one.content((110, 120), 5, None), None, "an eighth of a round trip is none");
        assert_eq!(one.content((190, 200), 5, None), None, "there is credit");
    }

    #[test]
    fn grants_before_the_first_content_are_in_its_credit() {
        let mut one = Unshown::new(100);
        for time in [0, 1, 200, 300] {
            one.grant(time, 10, true);
        }
        assert!(one.grants.len() <= 2);
        assert_eq!(one.content((310, 310), 30, Some(60)), None);
        assert_eq!(one.since, None, "20 at first, and 30 are known");
        assert_eq!(one.content((311, 311), 20, None), None);
        assert_eq!(one.content((400, 400), 1, None), Some((311, 400)));
    }
}
