//! SETTINGS of a side that wait for their acknowledgement: the last ones as they are, and those before them packed, in
//! some dozen bytes each, since a peer may leave any number of them without an answer.

use std::collections::VecDeque;

use crate::answer::At;
use crate::packed::Row;

/// The last SETTINGS without an acknowledgement, which are looked at.
pub const MOST_PENDING: usize = 64;

/// SETTINGS that say one of [`crate::settings::KINDS`], and wait for their acknowledgement.
#[derive(Clone, Copy, Debug, PartialEq, Eq)]
pub struct Waiting {
    /// How many SETTINGS that say none of them wait between these and the ones before.
    pub others: u32,
    pub at: At,
    pub values: [Option<u32>; 3],
    /// Where their initial window is told, if it is.
    pub told: Option<u32>,
}

/// The streams of a side that wait, the oldest first.
#[derive(Debug, Default)]
pub struct Queue {
    /// The oldest one, once it was looked at; those behind it; and the last ones, so many as are looked at.
    oldest: Option<Waiting>,
    packed: Row,
    last: VecDeque<Waiting>,
    /// How many wait behind the last one that says one of the kinds.
    others: u32,
}

impl Queue {
    /// Adds SETTINGS that say none of the kinds.
    pub fn push_other(&mut self) {
        self.others += 1;
    }

    /// Adds SETTINGS that say some, with the place where their initial window is told, if it is.
    pub fn push(&mut self, at: At, values: [Option<u32>; 3], told: Option<u32>) {
        let others = std::mem::take(&mut self.others);
        self.last.push_back(Waiting { others, at, values, told });
        if self.last.len() > MOST_PENDING {
            if let Some(Waiting { others, at, values: [a, b, c], told }) = self.last.pop_front() {
                self.packed.push(at, &[Some(others), told, a, b, c]);
            }
        }
    }

    /// The oldest of those that wait is acknowledged. Answers it, if it says one of the kinds.
    pub fn acknowledged(&mut self) -> Option<Waiting> {
        if self.oldest.is_none() {
            self.oldest = self.packed.take_first().map(waiting_of).or_else(|| self.last.pop_front());
        }
        let others = self.oldest.as_mut().map_or(&mut self.others, |oldest| &mut oldest.others);
        match others.checked_sub(1) {
            Some(rest) => *others = rest,
            None => return self.oldest.take(),
        }
        None
    }

    /// The last ones that wait, the newest first.
    pub fn last(&self) -> impl Iterator<Item = &Waiting> + Clone {
        self.last.iter().rev().chain(&self.oldest).take(MOST_PENDING)
    }
}

fn waiting_of((at, [others, told, a, b, c]): (At, [Option<u32>; 5])) -> Waiting {
    Waiting { others: others.unwrap_or(0), at, values: [a, b, c], told }
}

#[cfg(test)]
mod tests {
    use super::*;

    /// Adds SETTINGS, of which every third say nothing.
    fn push(queue: &mut Queue, number: u32) {
        let at = At { packet: u64::from(number) * 3, time: i64::from(number) * 1_000_000, frame: number };
        match number % 3 {
            0 => queue.push_other(),
            _ => queue.push(at, [None, Some(number), None], (number % 2 == 0).then_some(number)),
        }
    }

    fn values(queue: &Queue) -> Vec<u32> {
        queue.last().filter_map(|one| one.values[1]).collect()
    }

    #[test]
    fn those_that_wait_come_in_their_order() {
        let mut queue = Queue::default();
        assert_eq!(queue.acknowledged(), None);
        let (mut sent, mut answered) = (0, 0);
        for (more, fewer) in [(1000, 10), (1, 300), (500, 1100), (20, 111), (1, 1)] {
            (0..more).for_each(|_| {
                push(&mut queue, sent);
                sent += 1;
            });
            for _ in 0..fewer {
                let found = queue.acknowledged();
                let number = Some(answered).filter(|number| number % 3 > 0);
                assert_eq!(
                    found.map(|one| (one.at.frame, one.at.packet, one.others)),
                    number.map(|at| (at, u64::from(at) * 3, 0))
                );
                assert_eq!(found.and_then(|one| one.told), number.filter(|number| number % 2 == 0));
                answered += 1;
            }
            let wait: Vec<u32> = (answered..sent).rev().filter(|number| number % 3 > 0).take(MOST_PENDING).collect();
            assert_eq!(values(&queue), wait);
        }
        assert_eq!((sent, answered), (1522, 1522));
        assert!(queue.packed.is_empty() && queue.acknowledged().is_none());
    }

    #[test]
    fn many_take_few_bytes() {
        let mut queue = Queue::default();
        (0..100_000).for_each(|number| push(&mut queue, 3 * number + 1));
        assert!(queue.packed.len() < 2_000_000 && queue.last.len() == MOST_PENDING, "{}", queue.packed.len());
    }
}
