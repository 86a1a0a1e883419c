//! The frames of a connection, for what the captures of both of its ends tell together.

use import::{Held, TcpCourse, Why};
use reports::Side;

use crate::answer::{At, Nanos};
use crate::cutter::{kind, Cut};
use crate::intervals::Interval;

const SERVER: u32 = 1 << 31;
const KIND_BITS: u32 = 8;
const FLAGS_BITS: u32 = 8;

/// All frames of a connection, in the order of their numbers, which count from 1; what they grant; how TCP began, and
/// what of it came again or late.
#[derive(Clone, Debug, Default, PartialEq, Eq)]
pub struct Frames {
    /// The initial sequence numbers of the client and of the server.
    pub initials: [Option<u32>; 2],
    /// When the SYN and the SYN ACK came.
    pub syn: Option<Nanos>,
    pub syn_ack: Option<Nanos>,
    /// By the side that sends: its segments with bytes that it had sent before, and when bytes of it were missing.
    pub resent: [Vec<Resent>; 2],
    pub holes: [Vec<Interval>; 2],
    all: Vec<Frame>,
    grants: Vec<Grant>,
}

/// Bytes that a side sent again: when, and when first. Where that is not known, it is the time of the last segment with
/// new bytes before.
#[derive(Clone, Copy, Debug, PartialEq, Eq)]
pub struct Resent {
    pub first: Nanos,
    pub again: Nanos,
    pub bytes: u32,
}

/// A frame, in 24 bytes.
#[derive(Clone, Copy, Debug, PartialEq, Eq)]
pub struct Frame {
    /// When its last byte came.
    pub time: Nanos,
    /// The packet that completes it, above its kind.
    packet_and_kind: u64,
    side_and_stream: u32,
    length_and_flags: u32,
}

impl Frame {
    pub fn new(side: Side, (kind, flags): (u8, u8), stream: u32, length: u32, (packet, time): (u64, Nanos)) -> Frame {
        let server = if side == Side::Server { SERVER } else { 0 };
        Frame {
            time,
            packet_and_kind: packet << KIND_BITS | u64::from(kind),
            side_and_stream: server | stream & !SERVER,
            length_and_flags: length << FLAGS_BITS | u32::from(flags),
        }
    }

    pub fn side(&self) -> Side {
        if self.side_and_stream & SERVER == 0 {
            Side::Client
        } else {
            Side::Server
        }
    }

    pub fn kind(&self) -> u8 {
        self.packet_and_kind as u8
    }

    pub fn stream(&self) -> u32 {
        self.side_and_stream & !SERVER
    }

    /// Whether it is of a request or of what answers one: of its fields or its content, or the server's reset.
    pub fn is_of_message(&self) -> bool {
        let is_reset = self.kind() == kind::RST_STREAM && self.side() == Side::Server;
        is_reset || matches!(self.kind(), kind::DATA | kind::HEADERS | kind::CONTINUATION)
    }

    pub fn packet(&self) -> u64 {
        self.packet_and_kind >> KIND_BITS
    }

    pub fn length(&self) -> u32 {
        self.length_and_flags >> FLAGS_BITS
    }

    /// Whether another frame is the same but for when and where it was captured.
    pub fn is_as(&self, other: &Frame) -> bool {
        self.kind() == other.kind()
            && self.side_and_stream == other.side_and_stream
            && self.length_and_flags == other.length_and_flags
    }
}

/// What a WINDOW_UPDATE of four bytes grants.
#[derive(Clone, Copy, Debug, PartialEq, Eq)]
pub struct Grant {
    /// The frame's number.
    pub frame: u32,
    /// The side that may send more, and the stream on which it may; 0 is the connection's window.
    pub side: Side,
    pub stream: u32,
    pub amount: u32,
}

impl Frames {
    /// None yet, of a connection that began with these sequence numbers.
    pub(crate) fn new(initials: [Option<u32>; 2], course: &TcpCourse) -> Frames {
        let syn_ack = course.syn_ack.map(|arrival| arrival.nanos);
        let of = |side: usize, why: Why| {
            course.held.iter().filter(move |one| usize::from(one.side) == side && one.why == why)
        };
        let holes = [0, 1].map(|side| of(side, Why::Hole).map(|one| (one.begin, one.end)).collect());
        let resent = [0, 1].map(|side| resent_of(course, side, of(side, Why::Resent)));
        Frames { initials, syn: Some(course.syn.nanos), syn_ack, resent, holes, ..Frames::default() }
    }

    /// Takes the next one, which a packet completes.
    #[inline(never)]
    pub(crate) fn take(&mut self, side: Side, cut: &Cut<'_>, at: At) {
        let head = cut.head;
        self.push(Frame::new(side, (head.kind, head.flags), head.stream, head.length, (at.packet, at.time)));
        if let (kind::WINDOW_UPDATE, 4, Some(amount)) = (head.kind, head.length, cut.number()) {
            self.push_grant(amount & !SERVER);
        }
    }

    pub fn push(&mut self, frame: Frame) {
        self.all.push(frame);
    }

    /// The last frame is a WINDOW_UPDATE that grants so much.
    pub fn push_grant(&mut self, amount: u32) {
        if let Some(last) = self.all.last() {
            let frame = u32::try_from(self.all.len()).unwrap_or(u32::MAX);
            let (side, stream) = (last.side().other(), last.stream());
            self.grants.push(Grant { frame, side, stream, amount });
        }
    }

    pub fn all(&self) -> &[Frame] {
        &self.all
    }

    pub fn grants(&self) -> &[Grant] {
        &self.grants
    }
}

/// What a side sent again, with the times at which TCP knows that it was sent first.
fn resent_of<'a>(course: &TcpCourse, side: usize, held: impl Iterator<Item = &'a Held>) -> Vec<Resent> {
    let mut known = course.again.iter().filter(|one| usize::from(one.side) == side).peekable();
    let mut resent = Vec::<Resent>::new();
    for one in held {
        let told = known.next_if(|known| known.again == one.end).map(|known| known.first);
        let before = resent.last().filter(|last| last.again == one.begin).map_or(one.begin, |last| last.first);
        resent.push(Resent { first: told.unwrap_or(before).min(one.end), again: one.end, bytes: one.bytes });
    }
    resent
}

#[cfg(test)]
mod tests {
    use captures::Arrival;
    use import::{Again, Held, TcpCourse, Why};
    use reports::Side;

    use super::{Frame, Frames, Resent};

    #[test]
    fn what_came_again() {
        let held = |begin, end, why, side| Held { begin, end, first: 1, last: None, bytes: 7, why, side };
        let course = TcpCourse {
            syn: Arrival { packet: 1, nanos: 5 },
            syn_ack: None,
            ack: None,
            sides: Default::default(),
            ways: [None; 2],
            held: vec![
                held(10, 20, Why::Resent, 1),
                held(20, 30, Why::Resent, 1),
                held(30, 40, Why::Resent, 1),
                held(12, 40, Why::Hole, 1),
                held(50, 60, Why::Resent, 1),
                held(1, 2, Why::ZeroWindow, 1),
            ],
            again: vec![Again { side: 0, first: 1, again: 20 }, Again { side: 1, first: 3, again: 40 }],
        };
        let frames = Frames::new([None; 2], &course);
        let resent = |first, again| Resent { first, again, bytes: 7 };
        assert_eq!(frames.resent, [vec![], vec![resent(10, 20), resent(10, 30), resent(3, 40), resent(50, 60)]]);
        assert_eq!(frames.holes, [vec![], vec![(12, 40)]]);
    }

    #[test]
    fn what_a_frame_holds() {
        let frame = Frame::new(Side::Server, (8, 0xff), 0x7fff_ffff, 0xff_ffff, (1 << 40, -5));
        assert_eq!((frame.side(), frame.kind(), frame.length()), (Side::Server, 8, 0xff_ffff));
        assert_eq!((frame.packet(), frame.time), (1 << 40, -5));
        let later = Frame::new(Side::Server, (8, 0xff), 0x7fff_ffff, 0xff_ffff, (2, 7));
        assert!(frame.is_as(&later));
        assert!(!frame.is_as(&Frame::new(Side::Client, (8, 0xff), 0x7fff_ffff, 0xff_ffff, (2, 7))));
        assert!(!frame.is_as(&Frame::new(Side::Server, (8, 0xfe), 0x7fff_ffff, 0xff_ffff, (2, 7))));
        let mut frames = Frames::default();
        frames.push(frame);
        frames.push_grant(9);
        let grant = frames.grants()[0];
        assert_eq!((grant.frame, grant.side, grant.stream, grant.amount), (1, Side::Client, 0x7fff_ffff, 9));
    }
}
