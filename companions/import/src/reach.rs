//! How far the bytes of both sides of a connection came, and what is missing between them.

use std::collections::BTreeMap;

use captures::{flags, offset_of, placed, Arrival, Segment, END_OF_OFFSETS};

/// Both sides. Offsets count from a side's first byte.
#[derive(Default)]
pub struct Reach {
    sides: [Side; 2],
    is_snapped: bool,
}

#[derive(Default)]
struct Side {
    /// The number before its first byte.
    initial: Option<u32>,
    /// The offset up to which all came.
    next: u32,
    /// What came behind holes, by offsets.
    pieces: BTreeMap<u32, Piece>,
}

/// Bytes that lie together behind a hole.
#[derive(Clone, Copy)]
struct Piece {
    end: u32,
    /// The packet that brought the first of them to come, and how far the other side had come then.
    first: Arrival,
    other: u32,
}

/// Where a connection goes on behind bytes of a side that never came: at a packet, from these numbers of both sides on.
#[derive(Clone, Copy, Debug, PartialEq, Eq)]
pub struct Cut {
    pub first: Arrival,
    pub side: usize,
    pub starts: [u32; 2],
}

impl Side {
    /// The offset behind all that came.
    fn farthest(&self) -> u32 {
        self.pieces.values().next_back().map_or(self.next, |piece| piece.end)
    }

    fn number(&self, offset: u32) -> u32 {
        self.initial.unwrap_or(0).wrapping_add(1).wrapping_add(offset)
    }

    /// Bytes between these offsets came.
    fn add(&mut self, begin: u32, end: u32, first: Arrival, other: u32) {
        if begin > self.next {
            return self.behind_hole(begin, Piece { end, first, other });
        }
        self.next = self.next.max(end);
        if !self.pieces.is_empty() {
            self.close_holes();
        }
    }

    /// Bytes came up to the holes before pieces.
    fn close_holes(&mut self) {
        while let Some((begin, end)) = self.pieces.iter().next().map(|(begin, piece)| (*begin, piece.end)) {
            if begin > self.next {
                break;
            }
            self.next = self.next.max(end);
            self.pieces.remove(&begin);
        }
    }

    /// Pieces that touch become one, which the packet brought that came first.
    #[inline(never)]
    fn behind_hole(&mut self, begin: u32, piece: Piece) {
        let (mut begin, mut piece) = (begin, piece);
        if let Some((before, known)) = self.pieces.range(..begin).next_back().filter(|(_, known)| known.end >= begin) {
            (begin, piece) = (*before, Piece { end: piece.end.max(known.end), ..*known });
        }
        while let Some((next, known)) = self.pieces.range(begin..=piece.end).next().map(|(next, known)| (*next, *known))
        {
            let end = piece.end.max(known.end);
            piece = Piece { end, ..if known.first.packet < piece.first.packet { known } else { piece } };
            self.pieces.remove(&next);
        }
        self.pieces.insert(begin, piece);
    }
}

impl Reach {
    /// A side's bytes begin behind this number.
    pub fn begin(&mut self, side: usize, initial: u32) {
        self.sides[side].initial.get_or_insert(initial);
    }

    /// Takes a segment of a side whose beginning is known.
    #[inline]
    pub fn take(&mut self, side: usize, arrival: Arrival, segment: &Segment<'_>) {
        if segment.has_payload() && segment.flags & flags::RST == 0 {
            self.take_payload(side, arrival, segment);
        }
    }

    /// Takes a segment if it brings what comes next, and nothing is missing. Answers whether none of it is left.
    #[inline]
    pub fn goes_on(&mut self, side: usize, segment: &Segment<'_>) -> bool {
        let (length, one) = (segment.end - segment.start, &self.sides[side]);
        let offset = match one.initial {
            Some(initial) if self.pieces() == 0 => offset_of(initial, segment.sequence, segment.flags),
            _ => return false,
        };
        let is_next = offset == one.next && length <= (END_OF_OFFSETS - offset) as usize;
        if !is_next || length == 0 || segment.flags & flags::RST != 0 {
            return length == 0;
        }
        self.is_snapped |= segment.is_snapped;
        self.sides[side].next += length as u32;
        true
    }

    fn take_payload(&mut self, side: usize, arrival: Arrival, segment: &Segment<'_>) {
        let initial = match self.sides[side].initial {
            Some(initial) => initial,
            None => return,
        };
        self.is_snapped |= segment.is_snapped;
        let placed = placed(initial, segment.sequence, segment.flags, segment.payload());
        let (begin, end) = match placed {
            Some((offset, data)) => (offset, offset.saturating_add(data.len() as u32).min(END_OF_OFFSETS)),
            None => return,
        };
        if end <= self.sides[side].next {
            return;
        }
        let other = if begin > self.sides[side].next { self.sides[1 - side].farthest() } else { 0 };
        self.sides[side].add(begin, end, arrival, other);
    }

    /// How many pieces lie behind holes.
    #[inline]
    pub fn pieces(&self) -> usize {
        self.sides[0].pieces.len() + self.sides[1].pieces.len()
    }

    /// Whether packets are not whole, so that each seems to leave a hole.
    pub fn is_snapped(&self) -> bool {
        self.is_snapped
    }

    /// Where it goes on behind each hole, in the order of packets; never with bytes that came after later ones.
    pub fn cuts(&self) -> Vec<Cut> {
        let mut cuts = Vec::new();
        for (side, one) in self.sides.iter().enumerate() {
            let mut earliest = u64::MAX;
            for (begin, piece) in one.pieces.iter().rev().filter(|(_, piece)| piece.first.packet > 0) {
                if piece.first.packet < earliest {
                    earliest = piece.first.packet;
                    let mut starts = [one.number(*begin); 2];
                    starts[1 - side] = self.sides[1 - side].number(piece.other);
                    cuts.push(Cut { first: piece.first, side, starts });
                }
            }
        }
        cuts.sort_by_key(|cut| cut.first.packet);
        cuts
    }
}

#[cfg(test)]
mod tests {
    use super::*;

    fn reach(pieces: &[(usize, u32, u32)]) -> Reach {
        let mut reach = Reach::default();
        (0..2).for_each(|side| reach.begin(side, 99 + 1000 * side as u32));
        for (at, (side, begin, end)) in pieces.iter().enumerate() {
            let other = reach.sides[1 - side].farthest();
            reach.sides[*side].add(*begin, *end, Arrival { packet: at as u64 + 1, nanos: 0 }, other);
        }
        reach
    }

    /// Packets, sides and numbers.
    fn cuts(pieces: &[(usize, u32, u32)]) -> Vec<(u64, usize, [u32; 2])> {
        reach(pieces).cuts().iter().map(|cut| (cut.first.packet, cut.side, cut.starts)).collect()
    }

    #[test]
    fn holes_that_are_filled() {
        assert_eq!(reach(&[(0, 0, 5), (0, 7, 9), (0, 11, 12), (0, 5, 7), (0, 9, 11)]).pieces(), 0);
        assert_eq!(reach(&[(1, 5, 9), (1, 9, 12), (1, 4, 6), (1, 3, 13)]).pieces(), 1);
        assert_eq!(cuts(&[(1, 5, 9), (1, 0, 20)]), []);
    }

    #[test]
    fn holes_of_both_sides() {
        let found = cuts(&[(0, 0, 5), (1, 0, 50), (0, 8, 9), (0, 9, 10), (1, 60, 70), (0, 12, 13), (1, 70, 71)]);
        assert_eq!(found, [(3, 0, [108, 1150]), (5, 1, [110, 1160]), (6, 0, [112, 1170])]);
    }

    #[test]
    fn what_came_after_later_bytes() {
        assert_eq!(cuts(&[(0, 0, 5), (0, 20, 25), (0, 10, 12)]), [(2, 0, [120, 1100])]);
        assert_eq!(cuts(&[(0, 20, 25), (0, 10, 20)]), [(1, 0, [110, 1100])], "they touch");
    }
}
