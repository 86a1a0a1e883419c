//! Whether what one side sends had to wait for room in the other one's TCP window.

use captures::{flags, Arrival};

use crate::ways::{is_behind, Brief};

/// A segment that waits for less is not held back.
const LEAST_HELD: i64 = 20_000_000;
/// An acknowledgement that comes after more than so many of the quickest ways was delayed.
const DELAYED: i64 = 2;

/// What one side sent, as far as the other one's TCP window is to be told from it.
#[derive(Debug, Default)]
pub struct Room {
    /// The number that the other side acknowledged, and the one behind the last byte that it takes.
    window: Option<(u32, u32)>,
    /// The number behind all that was sent.
    sent: Option<(Arrival, u32)>,
    /// How many bytes the other side took before it acknowledged all of that.
    before: u32,
    /// When it did, and how many bytes it took then; and when first it took more.
    left: Option<(Arrival, u32)>,
    risen: Option<(Arrival, u32)>,
}

/// How much a segment may have: the segment size. And the quickest way to the other side and back, where it is known.
#[derive(Clone, Copy)]
pub struct Limits {
    pub size: u32,
    pub way: Option<i64>,
}

impl Room {
    /// A segment of the side with payload, all of it new. Answers from when until when it did not fit.
    pub fn sent(&mut self, arrival: Arrival, segment: &Brief, limits: Limits) -> Option<(Arrival, Arrival)> {
        let end = segment.sequence.wrapping_add(segment.payload);
        let before = self.sent.replace((arrival, end));
        let (told, risen) = (self.left.take(), self.risen.take());
        let ((last, _), (told, left)) = (before?, told?);
        // A side that waited for too long sends as much as there is room for (RFC 9293, 3.8.6.1).
        let is_cut = |room: u32| room == segment.payload && segment.payload < limits.size;
        let fits = |room: u32| room >= segment.payload.min(limits.size) && !is_cut(room);
        if fits(left) {
            return None;
        }
        let until = risen.filter(|risen| fits(risen.1)).map_or(arrival, |risen| risen.0);
        let took = told.nanos.saturating_sub(last.nanos);
        let is_delayed = limits.way.map_or(false, |way| took > way.saturating_mul(DELAYED));
        let from = if is_delayed { last } else { told };
        (until.nanos.saturating_sub(told.nanos) >= LEAST_HELD).then_some((from, until))
    }

    /// Whether so many bytes had no room before all that was sent was acknowledged.
    pub fn was_full(&self, payload: u32) -> bool {
        self.left.is_some() && self.before < payload
    }

    /// How many bytes the other side takes of what is sent next, which has this number.
    fn room(&self, end: u32) -> u32 {
        self.window.filter(|(_, edge)| is_behind(*edge, end)).map_or(0, |(_, edge)| edge.wrapping_sub(end))
    }

    /// Takes a segment of the other side, whose window is so large.
    pub fn answered(&mut self, arrival: Arrival, segment: &Brief, window: u32) {
        if !segment.has(flags::ACK) || segment.has(flags::RST) {
            return;
        }
        let number = segment.acknowledgement;
        if self.window.map_or(false, |(before, _)| is_behind(before, number)) {
            return;
        }
        let before = self.sent.map_or(0, |(_, end)| self.room(end));
        self.window = Some((number, number.wrapping_add(window)));
        let end = match self.sent {
            Some((_, end)) if end == number => end,
            _ => return,
        };
        let room = self.room(end);
        match self.left {
            None => (self.left, self.before) = (Some((arrival, room)), before),
            Some((_, left)) if room > left => {
                self.risen.get_or_insert((arrival, room));
            }
            Some(_) => {}
        }
    }
}

#[cfg(test)]
mod tests {
    use super::*;

    const LIMITS: Limits = Limits { size: 1448, way: Some(1_000_000) };

    fn at(millis: i64) -> Arrival {
        Arrival { packet: millis as u64, nanos: millis * 1_000_000 }
    }

    /// Two segments of so many bytes, and between them acknowledgements of the first, each with its time and window:
    /// from when until when the second one, which comes after 100 ms, waited for room.
    fn held(payload: u32, answers: &[(i64, u32)]) -> Option<(i64, i64)> {
        let mut room = Room::default();
        let piece = |sequence, payload| Brief { sequence, payload, flags: flags::ACK, ..Brief::default() };
        assert!(room.sent(at(0), &piece(u32::MAX - 99, 1000), LIMITS).is_none());
        for (millis, window) in answers {
            let answer = Brief { acknowledgement: 900, flags: flags::ACK, ..Brief::default() };
            room.answered(at(*millis), &answer, *window);
        }
        let held = room.sent(at(100), &piece(900, payload), LIMITS);
        held.map(|(from, until)| (from.nanos / 1_000_000, until.nanos / 1_000_000))
    }

    #[test]
    fn a_segment_that_does_not_fit_waits_for_room() {
        assert_eq!(held(1448, &[(2, 1447), (60, 5000)]), Some((2, 60)));
        assert_eq!(held(1448, &[(2, 1448), (60, 5000)]), None, "it fits");
        assert_eq!(held(5000, &[(2, 1448), (60, 9000)]), None, "a part of it does");
        assert_eq!(held(900, &[(2, 0), (30, 800), (60, 5000)]), Some((2, 100)), "the first that is more counts");
        assert_eq!(held(1448, &[(2, 1447), (21, 5000)]), None, "not long");
        assert_eq!(held(1448, &[(40, 1447), (60, 5000)]), Some((0, 60)), "the acknowledgement was delayed");
        assert_eq!(held(1448, &[]), None, "not all is acknowledged");
    }

    #[test]
    fn a_segment_that_fills_the_window_was_cut() {
        assert_eq!(held(1000, &[(2, 1000)]), Some((2, 100)));
        assert_eq!(held(1000, &[(2, 1001)]), None);
        assert_eq!(held(1448, &[(2, 1448)]), None, "a whole one");
    }

    #[test]
    fn the_room_before_an_acknowledgement() {
        let mut room = Room::default();
        let answer = |acknowledgement| Brief { acknowledgement, flags: flags::ACK, ..Brief::default() };
        room.answered(at(0), &answer(1), 1500);
        room.sent(at(1), &Brief { sequence: 1, payload: 1000, ..Brief::default() }, LIMITS);
        assert!(!room.was_full(501), "nothing is acknowledged");
        room.answered(at(40), &answer(1001), 1500);
        assert!(room.was_full(501) && !room.was_full(500));
        room.answered(at(41), &answer(1), 0);
        assert_eq!(room.room(1001), 1500, "an older one tells nothing");
    }
}
