//! Stretches of time: their union, what is left of some beside others, and sums over them by reasons.

use crate::answer::Nanos;

/// From a moment to another.
pub type Interval = (Nanos, Nanos);

/// The union of intervals, in order.
pub fn disjoint(mut intervals: Vec<Interval>) -> Vec<Interval> {
    intervals.retain(|(begin, end)| end > begin);
    intervals.sort_unstable();
    let mut union: Vec<Interval> = Vec::new();
    for (begin, end) in intervals {
        match union.last_mut() {
            Some(last) if begin <= last.1 => last.1 = last.1.max(end),
            _ => union.push((begin, end)),
        }
    }
    union
}

/// What is left of disjoint intervals beside others that are disjoint too.
pub fn without(intervals: &[Interval], taken: &[Interval]) -> Vec<Interval> {
    let mut left = Vec::new();
    let mut at = 0;
    for &(begin, end) in intervals {
        let mut begin = begin;
        while taken.get(at).map_or(false, |one| one.1 <= begin) {
            at += 1;
        }
        for &(from, to) in taken[at..].iter().take_while(|one| one.0 < end) {
            if from > begin {
                left.push((begin, from));
            }
            begin = begin.max(to);
        }
        if begin < end {
            left.push((begin, end));
        }
    }
    left
}

/// Stretches of time in the order of their begins, each with a reason; sums by reasons answer for any time.
#[derive(Clone, Debug)]
pub struct Stretches<Why> {
    begins: Vec<Nanos>,
    latest_ends: Vec<Nanos>,
    sums: Vec<(Why, Vec<Nanos>)>,
}

impl<Why: Copy + Ord> Stretches<Why> {
    pub fn new(mut found: Vec<(Nanos, Nanos, Why)>) -> Stretches<Why> {
        found.sort();
        let mut latest = Nanos::MIN;
        let latest_ends = found.iter().map(|one| {
            latest = latest.max(one.1);
            latest
        });
        let latest_ends = latest_ends.collect();
        let mut reasons: Vec<Why> = found.iter().map(|one| one.2).collect();
        reasons.sort_unstable();
        reasons.dedup();
        let sums = reasons.into_iter().map(|why| (why, sums_of(&found, why))).collect();
        Stretches { begins: found.iter().map(|one| one.0).collect(), latest_ends, sums }
    }

    /// The first of those that may overlap a stretch of time, and the one after the last.
    pub fn within(&self, begin: Nanos, end: Nanos) -> (usize, usize) {
        (self.latest_ends.partition_point(|one| *one <= begin), self.begins.partition_point(|one| *one < end))
    }

    pub fn sum(&self, first: usize, last: usize) -> Nanos {
        self.sums.iter().fold(0, |sum, one| sum.saturating_add(between(&one.1, first, last)))
    }

    /// The reason that took most of the time; of several the least.
    pub fn reason(&self, first: usize, last: usize) -> Option<Why> {
        let mut most: Option<(Nanos, Why)> = None;
        for (why, sums) in &self.sums {
            let nanos = between(sums, first, last);
            if most.map_or(true, |most| nanos > most.0) {
                most = Some((nanos, *why));
            }
        }
        most.map(|most| most.1)
    }
}

/// What of a reason lies before each stretch, and before the end.
fn sums_of<Why: PartialEq>(found: &[(Nanos, Nanos, Why)], why: Why) -> Vec<Nanos> {
    let mut sum: Nanos = 0;
    let mut sums = vec![0];
    for (begin, end, reason) in found {
        sum = if *reason == why { sum.saturating_add(end.saturating_sub(*begin)) } else { sum };
        sums.push(sum);
    }
    sums
}

fn between(sums: &[Nanos], first: usize, last: usize) -> Nanos {
    let at = |index: usize| sums.get(index).copied().unwrap_or(0);
    at(last).saturating_sub(at(first))
}

#[cfg(test)]
mod tests {
    use super::*;

    #[test]
    fn unions_and_what_is_left() {
        assert_eq!(disjoint(vec![(5, 7), (1, 3), (2, 4), (4, 5), (9, 9)]), [(1, 7)]);
        assert_eq!(without(&[(0, 10), (20, 30)], &[(2, 4), (8, 22), (25, 26)]), [(0, 2), (4, 8), (22, 25), (26, 30)]);
        assert_eq!(without(&[(0, 1), (2, 3)], &[(0, 9)]), []);
    }

    #[test]
    fn reasons_by_their_time() {
        let stretches = Stretches::new(vec![(10, 20, 'b'), (0, 5, 'a'), (12, 30, 'a')]);
        assert_eq!(stretches.within(5, 12), (1, 2));
        assert_eq!(stretches.within(30, 40), (3, 3));
        assert_eq!((stretches.sum(0, 3), stretches.reason(0, 3), stretches.reason(1, 2)), (33, Some('a'), Some('b')));
        assert_eq!(stretches.reason(0, 0), Some('a'));
    }
}
