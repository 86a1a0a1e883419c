//! Follows the segments of one connection, and notes what they show of its course.

use std::num::NonZeroU64;

use captures::{flags, Arrival, Segment};
use tls::{CLIENT, SERVER};

use crate::course::{Again, Held, TcpCourse, Uncaptured, Why, NEVER};
use crate::room::{Limits, Room};
use crate::sent::{Fresh, Sent};
use crate::ways::{Brief, Sending, Way};

#[derive(Default)]
pub struct Tracked {
    sides: [State; 2],
    /// By how much each side's windows are shifted, as its SYN says.
    shifts: [Option<Option<u8>>; 2],
}

/// What is known of one side besides its course.
#[derive(Default)]
struct State {
    sent: Sent,
    /// Since when its receive window is 0.
    closed: Option<Arrival>,
    /// Since when bytes of it are missing.
    holed: Option<Arrival>,
    /// What it sent, until the other side acknowledges it; and how much of that one's window is left.
    way: Way,
    room: Room,
}

impl Tracked {
    /// Takes a segment of a side.
    pub fn take(&mut self, course: &mut TcpCourse, side: usize, arrival: Arrival, segment: &Segment<'_>) {
        let has = |flag: u8| segment.flags & flag != 0;
        if side == SERVER && has(flags::SYN) && has(flags::ACK) {
            course.syn_ack.get_or_insert(arrival);
        }
        if side == CLIENT && course.syn_ack.is_some() && has(flags::ACK) && !has(flags::SYN) {
            course.ack.get_or_insert(arrival);
        }
        let known = &mut course.sides[side];
        known.last = Some(arrival);
        if has(flags::FIN) {
            known.fin.get_or_insert(arrival);
        }
        if has(flags::RST) {
            known.rst.get_or_insert(arrival);
        }
        let brief = Brief::of(segment);
        self.count(course, side, arrival, (segment, &brief));
        if has(flags::ACK) && !has(flags::RST) {
            course.sides[side].acknowledges |= !has(flags::SYN);
            self.sides[1 - side].sent.acknowledge(arrival, segment.acknowledgement);
        }
        self.window(course, side, arrival, (segment, &brief));
        if let Some(took) = self.sides[1 - side].way.answered(arrival, &brief) {
            let least = &mut course.ways[side];
            *least = Some(least.map_or(took, |least| least.min(took)));
        }
    }

    /// What a side sends begins behind a segment that was made up.
    pub fn begin_behind(&mut self, side: usize, segment: &Segment<'_>) {
        let length = segment.payload().len() as u32;
        let before = if segment.flags & flags::SYN != 0 { 0 } else { 1 };
        self.begin(side, segment.sequence.wrapping_add(length).wrapping_sub(before));
    }

    /// What a side sends begins behind this number.
    pub fn begin(&mut self, side: usize, initial: u32) {
        self.sides[side].sent.begin(initial);
    }

    /// Counts the bytes of a segment, and notes holes.
    fn count(
        &mut self,
        course: &mut TcpCourse,
        side: usize,
        arrival: Arrival,
        (segment, brief): (&Segment<'_>, &Brief),
    ) {
        let state = &mut self.sides[side];
        let known = &mut course.sides[side];
        let before = state.sent.last();
        let fresh = state.sent.add(arrival, segment);
        let Sending { held: held_back, first } = match fresh {
            Fresh::Doubled => Sending::default(),
            _ => state.way.sent(arrival, brief),
        };
        match fresh {
            Fresh::None => return,
            Fresh::Doubled => known.doubled += 1,
            Fresh::Bytes { fresh, again } => {
                known.bytes += u64::from(fresh);
                known.resent += u64::from(again);
                if again > 0 {
                    let from = Arrival { nanos: before.unwrap_or(arrival.nanos), ..arrival };
                    course.held.push(Held { bytes: again, ..held(Why::Resent, side, from, Some(arrival)) });
                    let again = first.map(|first| Again { side: side as u8, first, again: arrival.nanos });
                    course.again.extend(again);
                }
            }
        }
        if let Some(from) = held_back.filter(|_| !state.room.was_full(brief.payload)) {
            course.held.push(held(Why::Nagle, side, from, Some(arrival)));
        }
        if let (Fresh::Bytes { again: 0, .. }, Some(size)) = (fresh, state.way.segment_size()) {
            let limits = Limits { size, way: course.ways[1 - side] };
            let waited = state.room.sent(arrival, brief, limits);
            course.held.extend(waited.map(|(from, to)| held(Why::ZeroWindow, side, from, Some(to))));
        }
        known.segments += 1;
        if state.sent.has_hole() {
            state.holed.get_or_insert(arrival);
        } else if let Some(from) = state.holed.take() {
            course.held.push(held(Why::Hole, side, from, Some(arrival)));
        }
    }

    /// How large the window is of which a segment tells; of a SYN it is not shifted.
    fn window_of(&self, side: usize, segment: &Segment<'_>) -> Option<u32> {
        let shift = match self.shifts {
            _ if segment.flags & flags::SYN != 0 => 0,
            [Some(Some(client)), Some(Some(server))] => [client, server][side],
            [Some(_), Some(_)] => 0,
            _ => return None,
        };
        Some(u32::from(segment.window) << shift)
    }

    /// Notes the receive window, which holds back what the other side sends.
    fn window(
        &mut self,
        course: &mut TcpCourse,
        side: usize,
        arrival: Arrival,
        (segment, brief): (&Segment<'_>, &Brief),
    ) {
        if segment.flags & flags::SYN != 0 {
            self.shifts[side] = Some(brief.shift);
        }
        if let Some(window) = self.window_of(side, segment) {
            self.sides[1 - side].room.answered(arrival, brief, window);
        }
        let closed = &mut self.sides[side].closed;
        let is_opening = segment.flags & (flags::SYN | flags::ACK) == flags::SYN;
        if segment.flags & flags::RST != 0 || is_opening {
            return;
        }
        if segment.window == 0 {
            closed.get_or_insert(arrival);
        } else if let Some(from) = closed.take() {
            course.held.push(held(Why::ZeroWindow, 1 - side, from, Some(arrival)));
        }
    }

    /// Notes what lasts to the end of the capture.
    pub fn finish(&self, course: &mut TcpCourse) {
        for (side, state) in self.sides.iter().enumerate() {
            course.sides[side].lost = state.holed;
            let found = state.sent.uncaptured(state.way.largest());
            let first = state.holed.filter(|_| found.bytes > 0).into_iter().chain(found.first);
            course.sides[side].uncaptured = Uncaptured { first: first.min_by_key(|one| one.nanos), ..found };
            course.held.extend(state.closed.map(|from| held(Why::ZeroWindow, 1 - side, from, None)));
        }
        course.held.shrink_to_fit();
        course.again.shrink_to_fit();
    }
}

fn held(why: Why, side: usize, from: Arrival, to: Option<Arrival>) -> Held {
    Held {
        begin: from.nanos,
        end: to.map_or(NEVER, |to| to.nanos),
        first: from.packet,
        last: to.and_then(|to| NonZeroU64::new(to.packet)),
        bytes: 0,
        why,
        side: side as u8,
    }
}
