//! The bytes of both flows in the order in which they came, which wait until the first frame of each is known.

use captures::{offset_of, placed, Arrival, Flow, END_OF_OFFSETS};
use cutter::{Cut, Cutter, Nanos};

use crate::border::{border_of, is_tls, Border};
use crate::course::wants;

/// So many bytes of a flow wait.
pub const MOST_WAITING: usize = 1 << 20;
/// Where neither flow has a border, no more of one is waited for: frames of the usual length show themselves in this.
const MOST_UNKNOWN: usize = 1 << 16;
/// A border is looked for when so many bytes are there, and again whenever they are twice as many.
const FIRST_LOOK: usize = 13;
/// So much waits behind a hole though the other side has what is missing: packets may be in wrong order.
const MOST_BEHIND_HOLE: usize = 1 << 16;
/// So many bytes may show that they are TLS.
const OF_TLS: usize = 1 << 12;

/// What brings bytes: a segment, or what stands for one.
#[derive(Clone, Copy, Debug)]
pub struct Piece<'a> {
    pub arrival: Arrival,
    pub sequence: u32,
    pub acknowledgement: Option<u32>,
    /// Those of [`captures::flags`].
    pub flags: u8,
    /// The identification of its IP datagram; 0 where it has none.
    pub identification: u16,
    pub payload: &'a [u8],
}

/// One flow, in the order of its numbers from the first one that was seen on.
#[derive(Default)]
pub struct Incoming {
    /// The number before the first one that was seen.
    pub initial: Option<u32>,
    pub flow: Flow,
    /// What waits.
    bytes: Vec<u8>,
    next_look: usize,
    border: Option<Border>,
    is_tls: bool,
    /// How many bytes came before those that wait.
    gone: u32,
    /// The other side has what is missing here, so that it is not waited for; and whether it came all the same.
    is_lost: bool,
    is_late: bool,
}

impl Incoming {
    /// How many bytes wait, for a border or behind a hole.
    #[inline]
    pub fn waiting(&self) -> usize {
        self.bytes.capacity() + self.flow.cost()
    }

    /// Whether bytes came late that were not waited for any longer.
    pub fn is_late(&self) -> bool {
        self.is_late
    }

    /// The other side acknowledges what was sent before this number: what is missing of that will hardly be sent again.
    pub fn acknowledged(&mut self, number: u32) {
        if self.flow.cost() < MOST_BEHIND_HOLE {
            return;
        }
        let offset = self.initial.map_or(0, |initial| number.wrapping_sub(initial).wrapping_sub(1));
        if offset > self.flow.next() && offset < END_OF_OFFSETS {
            self.flow.lose();
            self.is_lost = true;
        }
    }

    /// Where the first frame begins, and how sure that is.
    pub fn border(&self) -> Option<(u32, u32)> {
        self.border.map(|border| (border.at as u32, border.bits))
    }

    /// How many bytes are in order.
    pub fn length(&self) -> u32 {
        self.flow.next()
    }

    fn look(&mut self, is_whole: bool) {
        if self.border.is_some() || !is_whole && self.bytes.len() < self.next_look.max(FIRST_LOOK) {
            return;
        }
        self.next_look = self.bytes.len() * 2;
        self.border =
            border_of(&self.bytes, is_whole).map(|border| Border { at: border.at + self.gone as usize, ..border });
        if self.border.is_none() && self.bytes.len() >= OF_TLS {
            self.is_tls = is_tls(&self.bytes);
        }
    }
}

/// What is given of a flow.
pub enum Given<'a, 'b> {
    /// Its first frame begins behind bytes of which the last came then: a frame that was cut.
    Begins(Arrival),
    Frame(&'a Cut<'b>),
}

/// Takes what is given of both flows.
pub trait Taker {
    fn given(&mut self, flow: usize, given: Given<'_, '_>);

    /// May take whole frames by itself from bytes of a flow that begin with a frame and came at that time. Answers how
    /// many bytes these frames have.
    fn frames(&mut self, _flow: usize, _bytes: &[u8], _time: Nanos) -> usize {
        0
    }
}

impl<Give: FnMut(usize, Given<'_, '_>)> Taker for Give {
    fn given(&mut self, flow: usize, given: Given<'_, '_>) {
        self(flow, given);
    }
}

/// Bytes that came together.
struct Mark {
    flow: usize,
    arrival: Arrival,
    length: usize,
}

/// Both flows.
pub struct Both {
    pub flows: [Incoming; 2],
    cutters: [Cutter; 2],
    marks: Vec<Mark>,
    /// Whether frames are read as they come.
    goes_on: bool,
}

impl Default for Both {
    fn default() -> Both {
        let cutters = [0, 1].map(|_| Cutter::new(false));
        Both { flows: Default::default(), cutters, marks: Vec::new(), goes_on: false }
    }
}

impl Both {
    /// Notes where a flow begins that was not seen before.
    pub fn begin(&mut self, flow: usize, piece: &Piece<'_>) -> u32 {
        let syn = u32::from(piece.flags & captures::flags::SYN != 0);
        *self.flows[flow].initial.get_or_insert(piece.sequence.wrapping_add(syn).wrapping_sub(1))
    }

    /// Takes what a flow brings, and gives the frames that are known then, each with its flow.
    pub fn take(&mut self, flow: usize, piece: &Piece<'_>, taker: &mut impl Taker) {
        let initial = self.begin(flow, piece);
        let one = &mut self.flows[flow];
        let (offset, data) = match placed(initial, piece.sequence, piece.flags, piece.payload) {
            Some(placed) => placed,
            None => return,
        };
        one.is_late |= one.is_lost && offset <= one.flow.next() && offset as usize + data.len() > one.length() as usize;
        let data = one.flow.add(offset, data, piece.arrival);
        let time = piece.arrival.nanos;
        if data.is_empty() {
            return;
        }
        if self.goes_on && one.border.is_some() {
            return self.cut(flow, &data, time, taker);
        }
        one.bytes.extend_from_slice(&data);
        self.marks.push(Mark { flow, arrival: piece.arrival, length: data.len() });
        one.look(false);
        let is_full = one.bytes.len() >= MOST_WAITING;
        if self.flows.iter().all(|one| one.border.is_some()) || is_full {
            self.go_on(is_full, taker);
        }
    }

    /// Takes what a flow brings next, while nothing waits: frames of that flow are read as they come, and nothing is
    /// missing of either. Answers whether that is so; nothing is taken otherwise.
    #[inline]
    pub fn goes_on(&mut self, flow: usize, piece: &Piece<'_>, taker: &mut impl Taker) -> bool {
        let other = &self.flows[1 - flow].flow;
        if !self.goes_on || other.has_hole() {
            return false;
        }
        let (one, payload) = (&mut self.flows[flow], piece.payload);
        let offset = match (one.initial, one.border) {
            (Some(_), _) if payload.is_empty() => return !one.flow.has_hole(),
            (Some(initial), Some(_)) => offset_of(initial, piece.sequence, piece.flags),
            _ => return false,
        };
        let goes_on = offset < END_OF_OFFSETS && one.flow.goes_on(offset, payload.len());
        if goes_on {
            self.cut(flow, payload, piece.arrival.nanos, taker);
        }
        goes_on
    }

    /// Takes bytes of a flow whose frames are read as they come.
    #[inline]
    fn cut(&mut self, flow: usize, bytes: &[u8], time: Nanos, taker: &mut impl Taker) {
        let cutter = &mut self.cutters[flow];
        let mut rest = bytes;
        while !rest.is_empty() {
            if cutter.is_between_frames() {
                rest = &rest[taker.frames(flow, rest, time)..];
                if rest.is_empty() {
                    break;
                }
            }
            rest = cutter.take_one(rest, time, wants, |cut| taker.given(flow, Given::Frame(cut)));
        }
    }

    /// Whether much came, and no border of either flow is known.
    #[inline]
    pub fn has_no_frames(&self) -> bool {
        let has_much = || self.flows.iter().any(|one| one.bytes.len() >= MOST_UNKNOWN);
        !self.goes_on && has_much() && self.flows.iter().all(|one| one.border.is_none())
    }

    /// Whether what came cannot be HTTP/2: it is TLS.
    #[inline]
    pub fn is_tls(&self) -> bool {
        self.flows.iter().any(|one| one.is_tls)
    }

    /// Ends the flow: what is there is all.
    pub fn finish(&mut self, taker: &mut impl Taker) {
        self.go_on(true, taker);
    }

    /// Says of what waits when the last byte before a border came.
    fn begin_flows(&self, taker: &mut impl Taker) {
        for (flow, one) in self.flows.iter().enumerate() {
            let rest = match one.border {
                Some(border) if border.at > one.gone as usize => border.at - one.gone as usize,
                _ => continue,
            };
            let mut end = 0;
            let last = self.marks.iter().filter(|mark| mark.flow == flow).find(|mark| {
                end += mark.length;
                end >= rest
            });
            last.iter().for_each(|mark| taker.given(flow, Given::Begins(mark.arrival)));
        }
    }

    /// Reads the frames of all bytes that wait. Those of a flow without a border are forgotten where no more wait.
    fn go_on(&mut self, is_full: bool, taker: &mut impl Taker) {
        if is_full {
            self.flows.iter_mut().for_each(|one| one.look(true));
        }
        self.goes_on = true;
        self.begin_flows(taker);
        let mut places = [0; 2];
        for Mark { flow, arrival, length } in std::mem::take(&mut self.marks) {
            let one = &self.flows[flow];
            let begin = places[flow];
            places[flow] += length;
            let border = match one.border {
                Some(border) => border.at - one.gone as usize,
                None => continue,
            };
            let bytes = &one.bytes[begin.max(border).min(begin + length)..begin + length];
            self.cutters[flow].take(bytes, arrival.nanos, wants, |cut| taker.given(flow, Given::Frame(cut)));
        }
        for one in &mut self.flows {
            one.gone += one.bytes.len() as u32;
            one.bytes = Vec::new();
            one.next_look = 0;
        }
    }
}

#[cfg(test)]
mod tests {
    use super::*;

    fn frame(stream: u32, length: usize) -> Vec<u8> {
        let size = (length as u32).to_be_bytes();
        [&size[1..], &[0, 0], &stream.to_be_bytes(), &vec![9; length]].concat()
    }

    fn piece(sequence: u32, payload: &[u8]) -> Piece<'_> {
        let arrival = Arrival { packet: 1, nanos: i64::from(sequence) };
        Piece { arrival, sequence, acknowledgement: None, flags: 16, identification: 0, payload }
    }

    fn stream_of(flow: usize, given: Given<'_, '_>) -> Option<(usize, u32)> {
        match given {
            Given::Begins(_) => None,
            Given::Frame(cut) => Some((flow, cut.head.stream)),
        }
    }

    /// Streams of frames, with their flows.
    fn taken(both: &mut Both, flow: usize, sequence: u32, payload: &[u8]) -> Vec<(usize, u32)> {
        let mut seen = Vec::new();
        both.take(flow, &piece(sequence, payload), &mut |flow, given: Given<'_, '_>| {
            seen.extend(stream_of(flow, given))
        });
        seen
    }

    #[test]
    fn frames_wait_for_both_borders() {
        let mut both = Both::default();
        let first = [&b"rest"[..], &frame(5, 100), &frame(5, 100)].concat();
        assert_eq!(taken(&mut both, 0, u32::MAX - 1, &first), []);
        assert_eq!(taken(&mut both, 1, 900, &frame(7, 100).repeat(2)), [(0, 5), (0, 5), (1, 7), (1, 7)]);
        let next = (u32::MAX - 1).wrapping_add(first.len() as u32);
        assert_eq!(taken(&mut both, 0, next, &frame(9, 3)), [(0, 9)], "around the end of all numbers");
        assert_eq!(taken(&mut both, 0, next, &frame(9, 3)), [], "again");
        assert_eq!(both.flows[0].border(), Some((4, 78)));
    }

    #[test]
    fn what_one_flow_has_is_read_at_the_end() {
        let mut both = Both::default();
        taken(&mut both, 1, 5, &frame(3, 50));
        let mut seen = Vec::new();
        both.finish(&mut |flow, given: Given<'_, '_>| seen.extend(stream_of(flow, given)));
        assert_eq!(seen, [(1, 3)]);
        assert!(both.flows[0].border().is_none());
    }

    #[test]
    fn a_flow_begins_behind_a_frame_that_was_cut() {
        let mut both = Both::default();
        taken(&mut both, 0, 1, b"re");
        taken(&mut both, 0, 3, b"st");
        taken(&mut both, 0, 5, &frame(5, 100).repeat(2));
        let mut times = Vec::new();
        both.finish(&mut |_, given: Given<'_, '_>| {
            times.extend(if let Given::Begins(last) = given { Some(last.nanos) } else { None })
        });
        assert_eq!(times, [3]);
    }

    /// A flow that brings its first bytes after the other one went on alone is read from its own border on.
    #[test]
    fn no_more_than_a_mebibyte_waits() {
        let mut both = Both::default();
        let many = frame(1, 16_000);
        let mut sequence: u32 = 1;
        let mut seen = 0;
        for _ in 0..80 {
            seen += taken(&mut both, 0, sequence, &many).len();
            sequence += many.len() as u32;
            assert!(both.flows[0].bytes.len() <= MOST_WAITING + many.len());
        }
        assert_eq!(seen, 80);
        let late = [&b"rest of some"[..], &frame(5, 10), &frame(5, 10)].concat();
        assert_eq!(taken(&mut both, 1, 7, &late), [(1, 5), (1, 5)]);
        assert_eq!(both.flows[1].border().map(|border| border.0), Some(12));
        assert_eq!(taken(&mut both, 1, 7 + late.len() as u32, &frame(6, 1)), [(1, 6)]);
    }

    #[test]
    fn much_without_frames() {
        let mut both = Both::default();
        taken(&mut both, 0, 1, &b"no frames are here. ".repeat(3000));
        assert!(!both.has_no_frames());
        taken(&mut both, 0, 60_001, &b"no frames are here. ".repeat(300));
        assert!(both.has_no_frames());
        taken(&mut both, 1, 7, &frame(5, 10).repeat(2));
        assert!(!both.has_no_frames());
    }

    #[test]
    fn tls_is_told() {
        let mut both = Both::default();
        let record = [&[23, 3, 3, 4, 0][..], &[0x55; 1024]].concat();
        taken(&mut both, 0, 1, &record.repeat(8));
        assert!(both.is_tls());
    }
}
