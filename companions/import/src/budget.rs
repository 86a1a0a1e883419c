//! How much may wait of all connections together that are joined.

use std::collections::BTreeMap;

/// So many bytes, beyond which the one that waits longest is given up.
pub const MOST_WAITING: usize = 64 << 20;

/// What waits of all.
#[derive(Default)]
pub struct Budget {
    total: usize,
    turn: u64,
    /// Who waits, by when they began to.
    since: BTreeMap<u64, usize>,
}

/// What waits of one.
#[derive(Clone, Copy, Debug, Default)]
pub struct Share {
    bytes: usize,
    /// When it began to.
    turn: u64,
}

impl Budget {
    /// Notes how many bytes wait of one.
    #[inline]
    pub fn note(&mut self, number: usize, share: &mut Share, bytes: usize) {
        if share.bytes != bytes {
            self.change(number, share, bytes);
        }
    }

    #[inline(never)]
    fn change(&mut self, number: usize, share: &mut Share, bytes: usize) {
        if share.bytes == 0 {
            self.turn += 1;
            share.turn = self.turn;
            self.since.insert(share.turn, number);
        } else if bytes == 0 {
            self.since.remove(&share.turn);
        }
        self.total = self.total - share.bytes + bytes;
        share.bytes = bytes;
    }

    /// Who is to be given up, since too much waits.
    #[inline]
    pub fn oldest_above(&self) -> Option<usize> {
        match self.total > MOST_WAITING {
            true => self.since.values().next().copied(),
            false => None,
        }
    }
}

#[cfg(test)]
mod tests {
    use super::*;

    #[test]
    fn the_one_that_waits_longest_is_given_up() {
        let (mut budget, mut shares) = (Budget::default(), [Share::default(); 3]);
        let mut note = |number: usize, bytes| {
            budget.note(number, &mut shares[number], bytes);
            budget.oldest_above()
        };
        assert_eq!([note(0, 9), note(1, MOST_WAITING - 9), note(0, 0), note(0, 9)], [None; 4]);
        assert_eq!(note(2, 1), Some(1), "the first began to wait anew");
        assert_eq!([note(1, 0), note(0, MOST_WAITING - 1), note(0, MOST_WAITING)], [None, None, Some(0)]);
    }
}
