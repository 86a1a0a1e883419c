//! Where a leg held back what the proxy was to send on, and whether the proxy passed that on to the other leg.

use crate::answer::{Nanos, Share};
use crate::legs::account::is_stall;
use crate::legs::said::{Brake, PassedOn};

/// Shorter ones do not count.
const LEAST: Nanos = 1_000_000;
/// So many are kept of a direction, and of each so many pieces that were passed on.
const MOST_KEPT: usize = 64;

/// A stretch of time in which nothing changes: what the proxy holds, what the leg does on which it sends that on, and
/// what the other one does.
pub struct Now {
    pub begin: Nanos,
    pub end: Nanos,
    pub held: u64,
    pub sends: Option<Share>,
    pub other: Option<Share>,
}

/// The brakes of a direction, as time goes on.
#[derive(Debug, Default)]
pub struct Braking {
    brakes: Vec<Brake>,
    open: Option<Brake>,
    piece: Option<PassedOn>,
}

fn brakes(share: Option<Share>) -> bool {
    is_stall(share) || share == Some(Share::Tcp)
}

impl Braking {
    #[inline]
    pub fn take(&mut self, now: &Now) {
        match () {
            () if now.held > 0 => self.take_held(now),
            () if self.open.is_some() => self.close(),
            () => {}
        }
    }

    fn take_held(&mut self, now: &Now) {
        if !brakes(now.sends) {
            self.close_piece();
            self.open.iter_mut().for_each(|brake| brake.most_held = brake.most_held.max(now.held));
            return;
        }
        let new = Brake { is_by_client: true, begin: now.begin, nanos: 0, most_held: 0, passed_on: Vec::new() };
        let brake = self.open.get_or_insert(new);
        brake.nanos = now.end - brake.begin;
        brake.most_held = brake.most_held.max(now.held);
        match now.other.filter(|share| brakes(Some(*share))) {
            Some(by) => {
                let after = now.begin - brake.begin;
                let new = PassedOn { begin: now.begin, nanos: 0, by, held: now.held, after };
                let piece = self.piece.get_or_insert(new);
                piece.nanos = now.end - piece.begin;
            }
            None => self.close_piece(),
        }
    }

    fn close_piece(&mut self) {
        if let (Some(piece), Some(brake)) = (self.piece.take(), &mut self.open) {
            if piece.nanos >= LEAST && brake.passed_on.len() < MOST_KEPT {
                brake.passed_on.push(piece);
            }
        }
    }

    fn close(&mut self) {
        self.close_piece();
        let brake = self.open.take();
        self.brakes.extend(brake.filter(|brake| brake.nanos >= LEAST));
        if self.brakes.len() == 2 * MOST_KEPT {
            self.keep_longest();
        }
    }

    /// They are in the order of their begins.
    fn keep_longest(&mut self) {
        if self.brakes.len() <= MOST_KEPT {
            return;
        }
        self.brakes.sort_by_key(|one| std::cmp::Reverse(one.nanos));
        self.brakes.truncate(MOST_KEPT);
        self.brakes.sort_by_key(|one| one.begin);
    }

    pub fn end(mut self) -> Vec<Brake> {
        self.close();
        self.keep_longest();
        self.brakes
    }
}

#[cfg(test)]
mod tests {
    use super::*;

    const MS: Nanos = 1_000_000;

    fn brakes_of(all: &[(Nanos, Nanos, u64, Share, Share)]) -> Vec<Brake> {
        let mut braking = Braking::default();
        for (begin, end, held, sends, other) in all {
            let (sends, other) = (Some(*sends), Some(*other));
            braking.take(&Now { begin: begin * MS, end: end * MS, held: *held, sends, other });
        }
        braking.end()
    }

    use Share::{Idle, Sending, StreamStall, Tcp};

    #[test]
    fn what_is_passed_on() {
        let found = brakes_of(&[
            (0, 1, 5, Sending, Sending),
            (1, 3, 9, StreamStall, Sending),
            (3, 5, 20, StreamStall, Tcp),
            (5, 6, 25, Sending, Sending),
            (6, 9, 21, Tcp, StreamStall),
            (9, 20, 0, StreamStall, StreamStall),
        ]);
        let pieces = vec![
            PassedOn { begin: 3 * MS, nanos: 2 * MS, by: Tcp, held: 20, after: 2 * MS },
            PassedOn { begin: 6 * MS, nanos: 3 * MS, by: StreamStall, held: 21, after: 5 * MS },
        ];
        let joined = Brake { is_by_client: true, begin: MS, nanos: 8 * MS, most_held: 25, passed_on: pieces };
        assert_eq!(found, [joined], "it held bytes all along");
    }

    #[test]
    fn what_is_not() {
        let found = brakes_of(&[(0, 5, 7, StreamStall, Idle), (5, 6, 0, Idle, Idle), (6, 7, 7, Sending, StreamStall)]);
        assert_eq!(found.len(), 1);
        assert!(found[0].passed_on.is_empty() && found[0].nanos == 5 * MS);
    }
}
