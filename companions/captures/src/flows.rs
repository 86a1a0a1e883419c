//! The bytes of one side of a TCP connection, in order, by h2audit's rules (docs/AUDIT_RULES.md, 3).
//!
//! The first packet that brings an offset wins. Offsets from 2^31 on do not count. Bytes behind a hole are held until
//! it is filled; a heap of what is held by offset, and one of what covers the place that is reached by arrival, give
//! them in n log n steps. A flow without a hole holds nothing, and its next segment passes as it stands.

use std::borrow::Cow;
use std::cmp::Reverse;
use std::collections::{BinaryHeap, HashMap};

use crate::internet::flags;

pub const END_OF_OFFSETS: u32 = 1 << 31;
pub const MOST_HELD: usize = 64 << 20;
const COST_OF_A_PIECE: usize = 200;

/// A packet's number, and its time in nanoseconds.
#[derive(Clone, Copy, Debug, PartialEq, Eq, PartialOrd, Ord)]
pub struct Arrival {
    pub packet: u64,
    pub nanos: i64,
}

/// The offset of a segment's first byte among those of its side, which begin behind the initial sequence number
/// (RFC 9293, 3.4). Bytes before these have offsets from 2^31 on.
#[inline]
pub fn offset_of(initial: u32, sequence: u32, flags: u8) -> u32 {
    let syn = u32::from(flags & flags::SYN != 0);
    sequence.wrapping_add(syn).wrapping_sub(initial).wrapping_sub(1)
}

/// Where a payload stands among the bytes of its side, and what of it counts.
#[inline]
pub fn placed(initial: u32, sequence: u32, flags: u8, payload: &[u8]) -> Option<(u32, &[u8])> {
    let offset = offset_of(initial, sequence, flags);
    if offset < END_OF_OFFSETS {
        return (!payload.is_empty()).then_some((offset, payload));
    }
    let before = offset.wrapping_neg() as usize;
    (before < payload.len()).then(|| (0, &payload[before..]))
}

/// Takes segments in the order of the capture, and gives bytes as soon as all before them are there.
#[derive(Debug, Default)]
pub struct Flow {
    next: u32,
    held: Option<Box<Held>>,
    /// What came behind a hole that is not waited for any longer.
    lost: Option<Arrival>,
}

/// What came behind a hole.
#[derive(Debug, Default)]
struct Held {
    pieces: BinaryHeap<Reverse<Piece>>,
    /// How long the longest piece is that is held at an offset.
    lengths: HashMap<u32, usize>,
    cost: usize,
    /// How many pieces came. Their packets need not have rising numbers.
    count: u64,
}

#[derive(Debug, PartialEq, Eq, PartialOrd, Ord)]
struct Piece {
    offset: u32,
    turn: u64,
    arrival: Arrival,
    data: Box<[u8]>,
}

/// A piece that reaches the place that is asked for, of which the first that came comes first.
#[derive(PartialEq, Eq, PartialOrd, Ord)]
struct Active<'a> {
    turn: u64,
    offset: u32,
    data: Cow<'a, [u8]>,
}

impl Flow {
    /// The offset up to which all bytes came.
    #[inline]
    pub fn next(&self) -> u32 {
        self.next
    }

    /// Whether bytes came behind a hole which is still there.
    #[inline]
    pub fn has_hole(&self) -> bool {
        self.lost.is_some() || self.held.is_some()
    }

    /// The first packet that brought bytes behind a hole which is still there.
    pub fn behind_hole(&self) -> Option<Arrival> {
        let first = || self.held.as_ref()?.pieces.iter().min_by_key(|piece| piece.0.turn);
        self.lost.or_else(|| Some(first()?.0.arrival))
    }

    /// What is held behind a hole costs so many bytes.
    #[inline]
    pub fn cost(&self) -> usize {
        self.held.as_ref().map_or(0, |held| held.cost)
    }

    /// Waits for a hole no longer.
    pub fn lose(&mut self) {
        self.lost = self.behind_hole();
        self.held = None;
    }

    /// Goes on by bytes which are the next ones, if nothing is missing before them. Answers whether that is so.
    #[inline]
    pub fn goes_on(&mut self, offset: u32, length: usize) -> bool {
        let goes_on = offset == self.next && !self.has_hole() && length <= (END_OF_OFFSETS - offset) as usize;
        if goes_on {
            self.next += length as u32;
        }
        goes_on
    }

    /// The bytes that are in order now.
    #[inline]
    pub fn add<'a>(&mut self, offset: u32, data: &'a [u8], arrival: Arrival) -> Cow<'a, [u8]> {
        let end = (u64::from(offset) + data.len() as u64).min(u64::from(END_OF_OFFSETS)) as u32;
        if end <= self.next || self.lost.is_some() {
            return Cow::Borrowed(&[]);
        }
        let data = &data[..(end - offset) as usize];
        if offset > self.next {
            self.hold(offset, data, arrival);
            return Cow::Borrowed(&[]);
        }
        if self.held.is_some() {
            return Cow::Owned(self.fill(offset, data));
        }
        let fresh = &data[(self.next - offset) as usize..];
        self.next = end;
        Cow::Borrowed(fresh)
    }

    fn hold(&mut self, offset: u32, data: &[u8], arrival: Arrival) {
        let held = self.held.get_or_insert_with(Default::default);
        let longest = held.lengths.entry(offset).or_insert(0);
        if *longest >= data.len() {
            return;
        }
        *longest = data.len();
        held.pieces.push(Reverse(Piece { offset, turn: held.count, arrival, data: data.into() }));
        held.count += 1;
        held.cost += data.len() + COST_OF_A_PIECE;
        if held.cost > MOST_HELD {
            self.lose();
        }
    }

    /// What a segment gives that fills a hole.
    #[inline(never)]
    fn fill(&mut self, offset: u32, data: &[u8]) -> Vec<u8> {
        let held = self.held.take().unwrap_or_default();
        let turn = held.count;
        self.joined(held, Active { turn, offset, data: Cow::Borrowed(data) })
    }

    /// What a segment that fills a hole gives with the pieces behind it: of each byte the first arrival's.
    fn joined(&mut self, mut held: Box<Held>, filling: Active<'_>) -> Vec<u8> {
        let mut active = BinaryHeap::from([Reverse(filling)]);
        let mut made = Vec::new();
        let mut at = self.next;
        loop {
            while held.pieces.peek().map_or(false, |piece| piece.0.offset <= at) {
                let Piece { offset, turn, data, .. } = held.pieces.pop().expect("it was looked at").0;
                held.forget(offset, data.len());
                active.push(Reverse(Active { turn, offset, data: Cow::Owned(data.into_vec()) }));
            }
            let next_held = held.pieces.peek().map_or(END_OF_OFFSETS, |piece| piece.0.offset);
            match active.peek() {
                None => break,
                Some(Reverse(first)) => {
                    let end = first.offset + first.data.len() as u32;
                    if end <= at {
                        active.pop();
                        continue;
                    }
                    let until = end.min(next_held);
                    made.extend_from_slice(&first.data[(at - first.offset) as usize..(until - first.offset) as usize]);
                    at = until;
                }
            }
        }
        self.next = at;
        self.held = (!held.pieces.is_empty()).then_some(held);
        made
    }
}

impl Held {
    fn forget(&mut self, offset: u32, length: usize) {
        self.cost -= length + COST_OF_A_PIECE;
        if self.lengths.get(&offset) == Some(&length) {
            self.lengths.remove(&offset);
        }
    }
}

#[cfg(test)]
mod tests {
    use super::*;
    use std::collections::hash_map::RandomState;
    use std::hash::{BuildHasher, Hasher};

    fn arrival(packet: u64) -> Arrival {
        Arrival { packet, nanos: 0 }
    }

    /// Numbers that differ at each run; a failure shows all steps.
    struct Dice(u64);

    impl Dice {
        fn below(&mut self, end: u64) -> u64 {
            self.0 ^= self.0 << 13;
            self.0 ^= self.0 >> 7;
            self.0 ^= self.0 << 17;
            self.0 % end
        }
    }

    /// Beside a model that keeps of each offset the first byte that came for it, whatever the packets' numbers.
    #[test]
    fn first_byte_of_each_offset_counts() {
        let mut dice = Dice(RandomState::new().build_hasher().finish() | 1);
        for _ in 0..20_000 {
            let (mut flow, mut given, mut first) = (Flow::default(), Vec::new(), [None; 64]);
            let mut steps = Vec::new();
            for packet in 0..1 + dice.below(12) {
                let offset = dice.below(20);
                let data: Vec<u8> = (0..1 + dice.below(9)).map(|_| dice.below(256) as u8).collect();
                steps.push((offset, data.clone()));
                for (at, byte) in (offset as usize..).zip(&data) {
                    first[at].get_or_insert(*byte);
                }
                given.extend_from_slice(&flow.add(offset as u32, &data, arrival(packet ^ 5)));
                let run: Vec<u8> = first.iter().map_while(|byte| *byte).collect();
                assert_eq!(given, run, "{steps:?}");
                assert_eq!(flow.next() as usize, run.len(), "{steps:?}");
                assert_eq!(flow.has_hole(), first[run.len()..].iter().any(Option::is_some), "{steps:?}");
                assert_eq!(flow.has_hole(), flow.behind_hole().is_some(), "{steps:?}");
            }
        }
    }

    #[test]
    fn offsets_end() {
        let mut flow = Flow { next: END_OF_OFFSETS - 2, ..Flow::default() };
        assert_eq!(&*flow.add(END_OF_OFFSETS - 2, b"abcd", arrival(1)), b"ab");
        assert_eq!(flow.next(), END_OF_OFFSETS);
    }

    /// What is held behind a hole is let go at 64 MiB, and the hole stays one.
    #[test]
    fn holes_are_not_waited_for_without_bound() {
        let mut flow = Flow::default();
        for at in 0..1100 {
            flow.add(1 + (at << 16), &[0; 1 << 16], arrival(u64::from(at)));
        }
        assert!(flow.held.is_none());
        assert_eq!(flow.behind_hole(), Some(arrival(0)));
        assert!(flow.add(0, b"a", arrival(2000)).is_empty());
    }
}
