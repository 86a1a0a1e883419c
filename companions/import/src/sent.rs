//! Which bytes a side has sent, so that those that come again are told from new ones, and packets that were captured
//! twice from either.

use std::collections::BTreeMap;

use captures::{flags, offset_of, placed, Arrival, Segment, END_OF_OFFSETS};

use crate::course::Uncaptured;

/// A packet that was captured twice stands so close to its double.
const MOST_BETWEEN: usize = 32;
const CLOSE: i64 = 1_000_000;
/// Odd, and without a pattern, so that each bit of a number moves many of its product.
const FACTOR: u64 = 0x9E37_79B9_7F4A_7C15;
const TURN: u32 = 29;
const STRIDE: usize = 32;

/// What a segment brings.
#[derive(Debug, PartialEq, Eq)]
pub enum Fresh {
    /// It has no payload that counts.
    None,
    /// It was captured before.
    Doubled,
    /// New bytes, and bytes that were sent before.
    Bytes { fresh: u32, again: u32 },
}

#[derive(Default)]
pub struct Sent {
    initial: Option<u32>,
    /// Whether its first byte is not the first that was captured.
    is_within: bool,
    /// The offset behind all bytes that came.
    reached: u32,
    /// Holes before that: begin and end of each.
    holes: BTreeMap<u32, u32>,
    /// The last packets, each with its time and its print, in a ring; and where in it the last one stands.
    recent: Vec<(i64, u64)>,
    latest: usize,
    /// The offset up to which the other side acknowledged, and with which packet; and the first one since when that
    /// lies behind all bytes that came.
    acknowledged: u32,
    raised: Option<Arrival>,
    beyond: Option<Arrival>,
    /// The longest payload.
    longest: u32,
    has_fin: bool,
    is_snapped: bool,
}

/// What tells one packet from another: its number, its identification, and its payload, in 64 bits. Eight bytes are
/// taken at a time, in four sums side by side; what differs in one sum alone differs in the result.
fn print_of(sequence: u32, identification: u16, octets: &[u8]) -> u64 {
    let add = |sum: u64, number: u64| (sum ^ number).wrapping_mul(FACTOR).rotate_left(TURN);
    let number = |eight: &[u8]| eight.try_into().map_or(0, u64::from_le_bytes);
    let mut sums = [0, 1, 2, 3];
    let mut all = octets.chunks_exact(STRIDE);
    for stride in &mut all {
        for (sum, eight) in sums.iter_mut().zip(stride.chunks_exact(8)) {
            *sum = add(*sum, number(eight));
        }
    }
    let mut last = all.remainder().chunks_exact(8);
    for (sum, eight) in sums.iter_mut().zip(&mut last) {
        *sum = add(*sum, number(eight));
    }
    let rest = last.remainder().iter().fold(0, |rest, octet| rest << 8 | u64::from(*octet));
    let others = [rest, u64::from(sequence), u64::from(identification), octets.len() as u64];
    sums.into_iter().chain(others).fold(0, add)
}

impl Sent {
    /// Begins behind this number, since bytes before that are none of what is told.
    pub fn begin(&mut self, initial: u32) {
        self.initial = Some(initial);
        self.is_within = true;
    }

    /// Whether bytes are missing before some that came.
    pub fn has_hole(&self) -> bool {
        !self.holes.is_empty()
    }

    /// The other side acknowledges.
    pub fn acknowledge(&mut self, arrival: Arrival, number: u32) {
        let offset = self.initial.map_or(u32::MAX, |initial| offset_of(initial, number, 0));
        if offset < END_OF_OFFSETS && offset > self.acknowledged {
            self.acknowledged = offset;
            self.raised = Some(arrival);
            if self.acknowledged_bytes() > self.reached {
                self.beyond.get_or_insert(arrival);
            }
        }
    }

    /// The offset behind the bytes that are acknowledged. A FIN has a number of its own, even if it was not captured.
    fn acknowledged_bytes(&self) -> u32 {
        let is_fin = self.has_fin || self.acknowledged == self.reached.saturating_add(1);
        self.acknowledged.saturating_sub(u32::from(is_fin))
    }

    /// What the other side has, though it was not captured, where it takes segments of this size; and the first packet
    /// that acknowledges what of it is at the end.
    pub fn uncaptured(&self, size: u32) -> Uncaptured {
        let mut found = Uncaptured::default();
        if self.is_snapped {
            return found;
        }
        let behind = (self.reached, self.acknowledged_bytes());
        found.first = self.beyond.filter(|_| behind.0 < behind.1);
        let holes = self.holes.iter().map(|(begin, end)| (*begin, (*end).min(self.acknowledged)));
        for (begin, end) in holes.chain([behind]).filter(|(begin, end)| begin < end) {
            let (length, longest) = (u64::from(end - begin), u64::from(self.longest.max(size)));
            found.bytes += length;
            found.packets += (length + longest - 1) / longest;
        }
        found
    }

    /// The time of the last segment with payload.
    pub fn last(&self) -> Option<i64> {
        self.recent.get(self.latest).map(|(nanos, _)| *nanos)
    }

    pub fn add(&mut self, arrival: Arrival, segment: &Segment<'_>) -> Fresh {
        if segment.flags & flags::SYN != 0 {
            self.initial.get_or_insert(segment.sequence);
        }
        self.has_fin |= segment.flags & flags::FIN != 0;
        self.is_snapped |= segment.is_snapped;
        let payload = segment.payload();
        let initial = match self.initial.filter(|_| !payload.is_empty()) {
            Some(initial) => initial,
            None => return Fresh::None,
        };
        self.longest = self.longest.max(payload.len() as u32);
        let print = print_of(segment.sequence, segment.identification, payload);
        let is_double =
            self.may_be_double(initial, segment) && self.is_double(arrival, print, segment.identification != 0);
        self.note(arrival, print);
        if is_double {
            return Fresh::Doubled;
        }
        let (offset, payload) = match placed(initial, segment.sequence, segment.flags, payload) {
            Some(found) if self.is_within || found.1.len() == payload.len() => found,
            _ => return Fresh::Bytes { fresh: 0, again: if self.is_within { 0 } else { payload.len() as u32 } },
        };
        let end = (u64::from(offset) + payload.len() as u64).min(u64::from(END_OF_OFFSETS)) as u32;
        let fresh = self.cover(offset, end);
        Fresh::Bytes { fresh, again: end - offset - fresh }
    }

    /// What begins behind all bytes that came was in no packet before. A number of a SYN is that before its bytes.
    fn may_be_double(&self, initial: u32, segment: &Segment<'_>) -> bool {
        let place = offset_of(initial, segment.sequence, 0);
        place < self.reached || place >= END_OF_OFFSETS - 1
    }

    /// Whether these bytes came with a packet just before that was no other one: with the same identification, or,
    /// where packets have none, at nearly the same time.
    fn is_double(&self, arrival: Arrival, print: u64, is_identified: bool) -> bool {
        let is_close = |nanos: i64| arrival.nanos.saturating_sub(nanos).saturating_abs() <= CLOSE;
        let mut recent = self.recent.iter();
        recent.any(|(nanos, one)| *one == print && (is_identified || is_close(*nanos)))
    }

    fn note(&mut self, arrival: Arrival, print: u64) {
        if self.recent.len() < MOST_BETWEEN {
            self.latest = self.recent.len();
            self.recent.push((arrival.nanos, print));
        } else {
            self.latest = (self.latest + 1) % MOST_BETWEEN;
            self.recent[self.latest] = (arrival.nanos, print);
        }
    }

    /// Notes bytes from one offset to another, and answers how many of them are new.
    fn cover(&mut self, begin: u32, end: u32) -> u32 {
        let mut fresh = end.saturating_sub(begin.max(self.reached));
        if begin <= self.reached && self.holes.is_empty() {
            self.reached = self.reached.max(end);
            return fresh;
        }
        if begin > self.reached {
            self.holes.insert(self.reached, begin);
        }
        let first = self.holes.range(..=begin).next_back().map_or(begin, |(begin, _)| *begin);
        let met: Vec<_> = self.holes.range(first..end).filter(|hole| *hole.1 > begin).map(|(a, b)| (*a, *b)).collect();
        for (hole, until) in met {
            self.holes.remove(&hole);
            fresh += until.min(end) - hole.max(begin);
            if hole < begin {
                self.holes.insert(hole, begin);
            }
            if until > end {
                self.holes.insert(end, until);
            }
        }
        if end > self.reached {
            self.reached = end;
            // What came behind its own acknowledgement, as packets of two queues do, leaves the latest one.
            self.beyond = if self.beyond.is_some() { self.raised } else { None };
        }
        fresh
    }
}

#[cfg(test)]
mod tests {
    use super::{print_of, Arrival, Sent};

    #[test]
    fn bytes_are_new_once() {
        let mut sent = Sent::default();
        let steps = [((10, 20), 10), ((0, 5), 5), ((0, 30), 15), ((3, 30), 0), ((28, 40), 10), ((50, 60), 10)];
        for ((begin, end), fresh) in steps {
            assert_eq!(sent.cover(begin, end), fresh, "{begin} to {end}");
        }
        assert_eq!(sent.cover(39, 61), 11);
        assert!(sent.holes.is_empty());
    }

    #[test]
    fn packets_that_differ_have_other_prints() {
        let octets: Vec<u8> = (1..=100).collect();
        let mut prints: Vec<u64> = (0..=octets.len()).map(|length| print_of(0, 0, &octets[..length])).collect();
        prints.extend((0..=70).map(|length| print_of(0, 0, &vec![0; length])));
        prints.extend([print_of(1, 0, &octets), print_of(0, 1, &octets)]);
        for at in 0..octets.len() {
            let mut changed = octets.clone();
            changed[at] ^= 0x80;
            prints.push(print_of(0, 0, &changed));
        }
        let count = prints.len() - 1; // two are of no bytes
        prints.sort_unstable();
        prints.dedup();
        assert_eq!(prints.len(), count);
    }

    #[test]
    fn what_the_other_side_has() {
        let mut sent = Sent { initial: Some(u32::MAX), longest: 10, ..Sent::default() };
        let uncaptured = |sent: &Sent| (sent.uncaptured(1).bytes, sent.uncaptured(1).packets);
        for (begin, end) in [(0, 10), (35, 45), (60, 70)] {
            sent.cover(begin, end);
        }
        let acknowledge =
            |sent: &mut Sent, number| sent.acknowledge(Arrival { packet: number, nanos: 0 }, number as u32);
        acknowledge(&mut sent, 10);
        assert_eq!(uncaptured(&sent), (0, 0));
        acknowledge(&mut sent, 50);
        assert_eq!(uncaptured(&sent), (30, 4), "25 before 35, and 5 of what is missing behind 45");
        acknowledge(&mut sent, 45);
        assert_eq!(uncaptured(&sent), (30, 4));
        acknowledge(&mut sent, 71);
        assert_eq!(uncaptured(&sent), (40, 5), "the last number is that of a FIN");
        let beyond = |sent: &Sent| sent.uncaptured(1).first.map(|arrival| arrival.packet);
        assert_eq!(beyond(&sent), None);
        acknowledge(&mut sent, 75);
        acknowledge(&mut sent, 76);
        assert_eq!((uncaptured(&sent), beyond(&sent)), ((46, 6), Some(75)));
        sent.cover(70, 72);
        assert_eq!((uncaptured(&sent), beyond(&sent)), ((44, 6), Some(76)), "the latest of what is left");
        sent.has_fin = true;
        assert_eq!(uncaptured(&sent), (43, 6));
        acknowledge(&mut sent, 1 << 31);
        assert_eq!(uncaptured(&sent), (43, 6), "no side sends so much at once");
        sent.cover(72, 75);
        assert_eq!((uncaptured(&sent), beyond(&sent)), ((40, 5), None));
        assert_eq!(sent.uncaptured(20).packets, 3, "of the segment size");
        assert_eq!(uncaptured(&Sent { is_snapped: true, ..sent }), (0, 0));
    }
}
