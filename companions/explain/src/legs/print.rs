//! What the first frames of a connection are: one that was captured twice, as before and behind a forwarder, has the
//! same twice, and no proxy between answers.

use std::hash::{BuildHasher, Hasher};

use cutter::{NumberHasher, Numbers};

use crate::answer::Nanos;
use crate::cutter::Cut;
use crate::legs::course::SLACK;

/// So many frames of a side tell a connection.
const MOST: u32 = 64;

/// What the first frames of a side are, as a number, and when the first one came.
#[derive(Clone, Copy, Debug, Default, PartialEq, Eq)]
pub struct Print {
    pub frames: u64,
    pub first: Nanos,
}

/// A print that is made as frames come.
pub struct Printing {
    hasher: NumberHasher,
    count: u32,
    first: Nanos,
}

impl Printing {
    /// All that are compared hash alike.
    pub fn new(numbers: Numbers) -> Printing {
        Printing { hasher: numbers.build_hasher(), count: 0, first: 0 }
    }

    /// Takes the header of a frame, and what of its payload is wanted.
    pub fn take(&mut self, cut: &Cut<'_>, time: Nanos) {
        if self.count == 0 {
            self.first = time;
        }
        if self.count < MOST {
            self.count += 1;
            self.add(cut);
        }
    }

    fn add(&mut self, cut: &Cut<'_>) {
        let Cut { head, payload, .. } = cut;
        self.hasher.write_u64(u64::from(head.length) << 32 | u64::from(head.stream));
        self.hasher.write_u64((payload.len() as u64) << 16 | u64::from(head.kind) << 8 | u64::from(head.flags));
        let mut eights = payload.chunks_exact(8);
        for eight in &mut eights {
            self.hasher.write_u64(eight.try_into().map_or(0, u64::from_le_bytes));
        }
        self.hasher.write_u64(eights.remainder().iter().fold(0, |rest, byte| rest << 8 | u64::from(*byte)));
    }

    pub fn end(&self) -> Print {
        Print { frames: self.hasher.finish(), first: self.first }
    }
}

/// Whether two connections may be one that was captured twice: both sides sent the same frames, and what came first at
/// one place did so because the other side sent it there, and nobody between.
pub fn may_be_one(one: &[Print; 2], other: &[Print; 2]) -> bool {
    let are_alike = one.iter().zip(other).all(|(one, other)| one.frames == other.frames);
    let [near, far] = if one[0].first <= other[0].first { [one, other] } else { [other, one] };
    are_alike && far[1].first <= near[1].first.saturating_add(SLACK)
}

#[cfg(test)]
mod tests {
    use super::*;
    use crate::cutter::Head;

    fn print(numbers: Numbers, kinds: &[u8], first: Nanos) -> Print {
        let mut printing = Printing::new(numbers);
        for kind in kinds {
            let head = Head { length: 1, kind: *kind, flags: 0, stream: 1 };
            printing.take(&Cut { head, payload: b"x", times: &[first], arrived: &[10] }, first);
        }
        printing.end()
    }

    #[test]
    fn one_connection_seen_twice() {
        let numbers = Numbers::new();
        let print = |kinds: &[u8], first| print(numbers, kinds, first);
        let near = [print(&[4, 1], 10_000), print(&[4], 90_000)];
        assert!(may_be_one(&near, &[print(&[4, 1], 20_000), print(&[4], 80_000)]), "a forwarder");
        assert!(may_be_one(&[print(&[4, 1], 20_000), print(&[4], 80_000)], &near));
        assert!(!may_be_one(&near, &[print(&[4, 1], 20_000), print(&[4], 95_000)]), "who is between answers first");
        assert!(!may_be_one(&near, &[print(&[4, 2], 20_000), print(&[4], 80_000)]));
        assert_eq!(print(&[1; 64], 5), print(&[1; 65], 5));
    }
}
