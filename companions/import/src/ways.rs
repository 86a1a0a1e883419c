//! How quickly the other side acknowledges what one side sends, and what Nagle's algorithm held back of it.

use captures::{flags, Arrival, Segment};

/// So many segments of a side that are not acknowledged yet are timed; later ones are not, until there is room.
const MOST_TIMED: usize = 8;
/// A pause in which a piece was held back (RFC 9293, 3.7.4), and which part of it may lie behind the acknowledgement.
const LEAST_HELD: i64 = 20_000_000;
const AT_ONCE: i64 = 10;
/// So many full segments may be outstanding before anything of them is acknowledged (RFC 6928): with more of them the
/// congestion window may hold back the next.
const FIRST_CONGESTION_WINDOW: u32 = 10;
/// Options that take away from the segment size, as the timestamps of each segment do (RFC 7323, 3.2).
const OPTIONS: u32 = 12;
const TCP_HEADER: usize = 20;
/// What every side takes (RFC 9293, 3.7.1).
const LEAST_SIZE: u32 = 536;
const MOST_SHIFTED: u8 = 14;

/// What one side sent, as far as the other one's acknowledgements are to be told from it.
#[derive(Debug, Default)]
pub struct Way {
    /// In the order of their numbers.
    timed: Vec<Timed>,
    /// The number behind all that was sent, and up to which it is acknowledged.
    sent: Option<u32>,
    acknowledged: u32,
    /// The last segment with payload, and how much was outstanding behind it.
    last: Option<(Arrival, u32)>,
    /// When all was acknowledged, by a segment without payload; none once either side sent payload again.
    free: Option<i64>,
    /// The largest segment that the other side takes, as its SYN says.
    size: Option<u32>,
    /// Whether the side has sent its FIN.
    has_fin: bool,
}

/// A segment, when it was sent first, and whether that was not the only time.
#[derive(Debug)]
struct Timed {
    begin: u32,
    end: u32,
    nanos: i64,
    is_again: bool,
}

/// What a segment says of those before it.
#[derive(Default)]
pub struct Sending {
    /// When the segment with payload before it came, if Nagle's algorithm held this one back.
    pub held: Option<Arrival>,
    /// When what it brings again was sent first, as far as that is not acknowledged.
    pub first: Option<i64>,
}

/// What of a segment the two ways of a connection are told by.
#[derive(Clone, Copy, Debug, Default)]
pub struct Brief {
    pub sequence: u32,
    pub acknowledgement: u32,
    pub flags: u8,
    pub payload: u32,
    /// The largest segment that its side takes, and by how much its windows are shifted, as a SYN says.
    pub size: Option<u32>,
    pub shift: Option<u8>,
}

impl Brief {
    pub fn of(segment: &Segment<'_>) -> Brief {
        let Segment { sequence, acknowledgement, flags, .. } = *segment;
        let payload = segment.payload().len() as u32;
        let (size, shift) = if flags & flags::SYN != 0 { options_of(segment) } else { (None, None) };
        Brief { sequence, acknowledgement, flags, payload, size, shift }
    }

    pub fn has(&self, flag: u8) -> bool {
        self.flags & flag != 0
    }
}

/// Whether one sequence number stands behind another (RFC 9293, 3.4).
pub fn is_behind(one: u32, other: u32) -> bool {
    (one.wrapping_sub(other) as i32) > 0
}

impl Way {
    /// A segment of the side, unless it was captured before.
    pub fn sent(&mut self, arrival: Arrival, segment: &Brief) -> Sending {
        let payload = segment.payload;
        let length = payload + u32::from(segment.has(flags::SYN)) + u32::from(segment.has(flags::FIN));
        if length == 0 {
            return Sending::default();
        }
        self.has_fin |= segment.has(flags::FIN);
        let (begin, end) = (segment.sequence, segment.sequence.wrapping_add(length));
        let is_new = self.sent.map_or(true, |sent| !is_behind(sent, begin));
        let held = if is_new && payload > 0 { self.held(arrival, payload) } else { None };
        let first = if is_new { None } else { self.sent_again((begin, end), arrival, segment.has(flags::SYN)) };
        if is_new && self.timed.len() < MOST_TIMED {
            self.timed.push(Timed { begin, end, nanos: arrival.nanos, is_again: false });
        }
        if self.sent.map_or(true, |sent| is_behind(end, sent)) {
            self.acknowledged = if self.sent.is_some() { self.acknowledged } else { begin };
            self.sent = Some(end);
        }
        if payload > 0 {
            self.last = Some((arrival, end.wrapping_sub(self.acknowledged)));
            self.free = None;
        }
        Sending { held, first }
    }

    /// What was sent again may have an acknowledgement of either; a SYN is answered at once, so its last one counts.
    fn sent_again(&mut self, (begin, end): (u32, u32), arrival: Arrival, is_opening: bool) -> Option<i64> {
        let mut first: Option<i64> = None;
        for one in self.timed.iter_mut().filter(|one| is_behind(one.end, begin) && is_behind(end, one.begin)) {
            first = Some(first.map_or(one.nanos, |first| first.min(one.nanos)));
            one.is_again = !is_opening;
            one.nanos = if is_opening { arrival.nanos } else { one.nanos };
        }
        first
    }

    /// The largest segment that the other side takes.
    pub fn largest(&self) -> u32 {
        self.size.unwrap_or(LEAST_SIZE)
    }

    /// How many bytes a whole segment of the side has.
    pub fn segment_size(&self) -> Option<u32> {
        self.size.map(|size| size.saturating_sub(OPTIONS))
    }

    /// Whether the piece had to wait until all before it was acknowledged, and was sent at once then.
    fn held(&self, arrival: Arrival, payload: u32) -> Option<Arrival> {
        let ((last, outstanding), free, size) = (self.last?, self.free?, self.segment_size()?);
        let pause = arrival.nanos.saturating_sub(last.nanos);
        let is_at_once = arrival.nanos.saturating_sub(free) <= pause / AT_ONCE;
        let is_free = outstanding <= size.saturating_mul(FIRST_CONGESTION_WINDOW);
        (pause >= LEAST_HELD && is_at_once && payload < size && is_free).then_some(last)
    }

    /// A segment of the other side. Answers how long the last segment took that it is the first to acknowledge.
    pub fn answered(&mut self, arrival: Arrival, segment: &Brief) -> Option<i64> {
        self.size = segment.size.or(self.size);
        if segment.payload > 0 {
            self.free = None;
        }
        if !segment.has(flags::ACK) || segment.has(flags::RST) {
            return None;
        }
        let number = segment.acknowledgement;
        if self.sent.is_none() || !is_behind(number, self.acknowledged) {
            return None;
        }
        self.acknowledged = number;
        let is_bare = segment.payload == 0 && !segment.has(flags::SYN | flags::FIN);
        self.free = (is_bare && self.sent == Some(number)).then_some(arrival.nanos);
        let mut last: Option<i64> = None;
        let count = self.timed.iter().take_while(|one| !is_behind(one.end, number)).count();
        for one in self.timed.drain(..count) {
            last = if one.is_again { last } else { Some(one.nanos) };
        }
        if self.has_fin && self.timed.is_empty() {
            self.timed = Vec::new();
        }
        last.map(|last| arrival.nanos.saturating_sub(last)).filter(|took| *took >= 0)
    }
}

/// What a side's SYN says: the largest segment that it takes (RFC 9293, 3.2), the shift of its windows (RFC 7323, 2.2).
fn options_of(segment: &Segment<'_>) -> (Option<u32>, Option<u8>) {
    let headers = segment.headers().concat();
    let (mut size, mut shift) = (None, None);
    let mut options = headers.get(segment.tcp + TCP_HEADER..).unwrap_or_default();
    loop {
        match *options {
            [2, 4, high, low, ..] => size = Some(u32::from(u16::from_be_bytes([high, low]))),
            [3, 3, by, ..] => shift = Some(by.min(MOST_SHIFTED)),
            _ => {}
        }
        options = match *options {
            [1, ref behind @ ..] => behind,
            [kind, length, ..] if kind > 1 && length >= 2 => options.get(usize::from(length)..).unwrap_or_default(),
            _ => return (size, shift),
        };
    }
}

#[cfg(test)]
mod tests {
    use super::*;

    const MS: i64 = 1_000_000;

    fn at(millis: i64) -> Arrival {
        Arrival { packet: millis as u64, nanos: millis * MS }
    }

    /// A segment of so many bytes.
    fn piece(sequence: u32, payload: u32) -> Brief {
        Brief { sequence, payload, flags: flags::ACK, ..Brief::default() }
    }

    fn ack(acknowledgement: u32) -> Brief {
        Brief { acknowledgement, flags: flags::ACK, ..Brief::default() }
    }

    /// How many milliseconds an acknowledgement tells.
    fn took(way: &mut Way, millis: i64, number: u32) -> Option<i64> {
        way.answered(at(millis), &ack(number)).map(|nanos| nanos / MS)
    }

    #[test]
    fn the_last_segment_that_is_acknowledged_counts() {
        let mut way = Way::default();
        way.sent(at(0), &piece(u32::MAX - 50, 100));
        way.sent(at(5), &piece(49, 100));
        way.sent(at(6), &piece(149, 100));
        assert_eq!(took(&mut way, 20, 49), Some(20));
        assert_eq!(took(&mut way, 21, 200), Some(16), "of the first two, around the end of all numbers");
        assert_eq!(took(&mut way, 22, 200), None);
        assert_eq!(took(&mut way, 1, 249), None, "times that go back tell nothing");
    }

    #[test]
    fn what_was_sent_again_tells_nothing_but_when_it_was_sent_first() {
        let mut way = Way::default();
        way.sent(at(0), &piece(0, 100));
        way.sent(at(1), &piece(100, 100));
        assert_eq!(way.sent(at(200), &piece(50, 100)).first, Some(0));
        assert_eq!(way.sent(at(600), &piece(100, 100)).first, Some(MS));
        assert_eq!(took(&mut way, 610, 200), None);
        assert_eq!(way.sent(at(620), &piece(100, 100)).first, None, "it had come");
    }

    #[test]
    fn the_last_syn_counts() {
        let mut way = Way::default();
        let syn = Brief { flags: flags::SYN, ..Brief::default() };
        way.sent(at(0), &syn);
        way.sent(at(1000), &syn);
        let answer = Brief { flags: flags::SYN | flags::ACK, acknowledgement: 1, ..syn };
        assert_eq!(way.answered(at(1003), &answer), Some(3 * MS));
    }

    #[test]
    fn so_many_are_timed() {
        let mut way = Way::default();
        (0..20).for_each(|number| {
            way.sent(at(i64::from(number)), &piece(number * 10, 10));
        });
        assert_eq!(way.timed.len(), MOST_TIMED);
        assert_eq!(took(&mut way, 50, 200), Some(43), "of the eighth, since no later one is timed");
        way.sent(at(60), &piece(200, 10));
        assert_eq!(took(&mut way, 61, 210), Some(1));
    }

    /// A piece that is sent behind 3,000 bytes: whether it was held back, where these steps change something.
    fn is_held(change: impl Fn(&mut Way), millis: i64, payload: u32) -> bool {
        let mut way = Way { size: Some(1460), ..Way::default() };
        way.sent(at(0), &piece(0, 3000));
        change(&mut way);
        way.sent(at(millis), &piece(3000, payload)).held == Some(at(0))
    }

    #[test]
    fn nagle() {
        let all = |way: &mut Way| {
            way.answered(at(40), &ack(3000));
        };
        assert!(is_held(all, 40, 100) && is_held(all, 44, 1447));
        assert!(!is_held(all, 46, 100), "not at once");
        assert!(!is_held(all, 40, 1448), "a whole segment");
        assert!(
            !is_held(
                |way| {
                    way.answered(at(40), &ack(2999));
                },
                40,
                100
            ),
            "not all was acknowledged"
        );
        assert!(
            !is_held(
                |way| {
                    way.answered(at(19), &ack(3000));
                },
                19,
                100
            ),
            "not long"
        );
        assert!(
            !is_held(
                |way| {
                    way.answered(at(40), &Brief { payload: 9, ..ack(3000) });
                },
                40,
                100
            ),
            "an answer"
        );
        let answered = |way: &mut Way| {
            all(way);
            way.answered(at(41), &Brief { payload: 9, ..ack(3000) });
        };
        assert!(!is_held(answered, 42, 100), "an answer after it");
        let many = |way: &mut Way| {
            way.last = Some((at(0), 14_481));
            all(way);
        };
        assert!(!is_held(many, 40, 100), "a congestion window may be full");
    }
}
