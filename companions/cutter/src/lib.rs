//! Cuts the frames of one side out of its bytes as they come (RFC 9113, 4.1; docs/AUDIT_RULES.md, 4).

#![forbid(unsafe_code)]

mod numbers;

pub use numbers::{NumberHasher, Numbers};

/// A time in nanoseconds since 1970.
pub type Nanos = i64;

/// What a client sends first (RFC 9113, 3.4).
pub const PREFACE: &[u8; 24] = b"PRI * HTTP/2.0\r\n\r\nSM\r\n\r\n";
/// What a connection's window begins with, and a stream's where no SETTINGS say another one (RFC 9113, 6.9.2).
pub const FIRST_CREDIT: i64 = 65_535;
/// No window has more (6.9.1).
pub const MOST_CREDIT: i64 = (1 << 31) - 1;
/// So many bytes stand before a frame's payload.
pub const HEADER: usize = 9;
const STREAM: u32 = (1 << 31) - 1;
/// So many different times of packets of one frame are kept.
const MOST_TIMES: usize = 1 << 20;
/// So much room is kept from frame to frame.
const MOST_ROOM: usize = 256;

/// Types of frames, by section 6 of RFC 9113.
pub mod kind {
    pub const DATA: u8 = 0;
    pub const HEADERS: u8 = 1;
    pub const PRIORITY: u8 = 2;
    pub const RST_STREAM: u8 = 3;
    pub const SETTINGS: u8 = 4;
    pub const PUSH_PROMISE: u8 = 5;
    pub const PING: u8 = 6;
    pub const GOAWAY: u8 = 7;
    pub const WINDOW_UPDATE: u8 = 8;
    pub const CONTINUATION: u8 = 9;
}

pub mod flag {
    pub const END_STREAM: u8 = 1;
    pub const ACK: u8 = 1;
    pub const END_HEADERS: u8 = 4;
    pub const PADDED: u8 = 8;
    pub const PRIORITY: u8 = 32;
}

/// The header of a frame.
#[derive(Clone, Copy, Debug, PartialEq, Eq)]
pub struct Head {
    pub length: u32,
    pub kind: u8,
    pub flags: u8,
    pub stream: u32,
}

impl Head {
    #[inline]
    pub fn of(bytes: &[u8; HEADER]) -> Head {
        let [.., kind, flags, _, _, _, _] = *bytes;
        let number = |at: usize| u32::from_be_bytes(bytes[at..at + 4].try_into().unwrap_or_default());
        Head { length: number(0) >> 8, kind, flags, stream: number(5) & STREAM }
    }

    /// The header as it stands in front of its payload.
    #[inline]
    pub fn octets(&self) -> [u8; HEADER] {
        let kinds = u64::from(self.kind) << 32 | u64::from(self.flags) << 24;
        let front = u64::from(self.length) << 40 | kinds | u64::from(self.stream >> 8);
        let mut octets = [0; HEADER];
        octets[..8].copy_from_slice(&front.to_be_bytes());
        octets[8] = self.stream as u8;
        octets
    }

    #[inline]
    pub fn has(&self, flag: u8) -> bool {
        self.flags & flag != 0
    }
}

/// A whole frame.
#[derive(Clone, Copy, Debug)]
pub struct Cut<'a> {
    pub head: Head,
    /// What of its payload was wanted.
    pub payload: &'a [u8],
    /// When its packets came, the first and the last one too.
    pub times: &'a [Nanos],
    /// How many bytes of it had come by each of these times, its header too; nothing or one number if all came at once.
    pub arrived: &'a [u32],
}

impl Cut<'_> {
    /// Where what a frame holds begins and ends in its payload, behind the pad length and fields of so many bytes;
    /// none where it cannot be read (docs/AUDIT_RULES.md, 4).
    #[inline]
    pub fn body(&self, fields: usize) -> Option<(usize, usize)> {
        let padded = self.head.has(flag::PADDED);
        let (need, length) = (fields + usize::from(padded), self.head.length as usize);
        let padding = match padded {
            true => usize::from(*self.payload.first()?),
            false => 0,
        };
        let end = length.checked_sub(padding)?;
        (need <= end).then_some((need, end))
    }

    /// The first four bytes as a number.
    #[inline]
    pub fn number(&self) -> Option<u32> {
        self.payload.get(..4).and_then(|bytes| bytes.try_into().ok()).map(u32::from_be_bytes)
    }
}

/// The frames of one side, of which the last one may have begun.
pub struct Cutter {
    /// How many bytes of the preface came, of a client.
    preface: usize,
    is_other: bool,
    header: [u8; HEADER],
    /// How many bytes of a header came.
    begun: usize,
    /// How many bytes of a payload are to come.
    rest: usize,
    kept: Vec<u8>,
    times: Vec<Nanos>,
    arrived: Vec<u32>,
}

impl Cutter {
    pub fn new(is_client: bool) -> Cutter {
        Cutter {
            preface: if is_client { 0 } else { PREFACE.len() },
            is_other: false,
            header: [0; HEADER],
            begun: 0,
            rest: 0,
            kept: Vec::new(),
            times: Vec::new(),
            arrived: Vec::new(),
        }
    }

    /// Whether the side does not begin as HTTP/2 does.
    #[inline]
    pub fn is_other(&self) -> bool {
        self.is_other
    }

    /// Whether the whole preface came.
    pub fn has_preface(&self) -> bool {
        self.preface == PREFACE.len()
    }

    /// The stream of the frame whose rest did not come, where its header did, and when its packets came.
    #[inline]
    pub fn cut_frame(&self) -> Option<(u32, &[Nanos])> {
        (self.begun == HEADER).then(|| (Head::of(&self.header).stream, &self.times[..]))
    }

    /// The frame whose rest did not come, with as much of its payload as is wanted, as it stands at the end.
    pub fn unfinished(&self) -> Option<Cut<'_>> {
        let Cutter { header, kept, times, arrived, .. } = self;
        (self.begun == HEADER).then(|| Cut { head: Head::of(header), payload: kept, times, arrived })
    }

    /// Takes bytes that a packet brought at a time, and gives each frame that ends with them, with as many bytes of its
    /// payload as are wanted.
    #[inline]
    pub fn take(
        &mut self,
        bytes: &[u8],
        time: Nanos,
        wants: impl Fn(&Head) -> usize + Copy,
        mut give: impl FnMut(&Cut<'_>),
    ) {
        let mut rest = self.behind_preface(bytes);
        while !rest.is_empty() {
            rest = self.take_one(rest, time, wants, &mut give);
        }
    }

    /// Whether the next byte behind the preface begins a frame.
    #[inline]
    pub fn is_between_frames(&self) -> bool {
        self.begun == 0
    }

    /// Takes bytes behind the preface up to the end of one frame, which it gives. Answers the bytes behind that.
    #[inline(always)]
    pub fn take_one<'a>(
        &mut self,
        bytes: &'a [u8],
        time: Nanos,
        wants: impl Fn(&Head) -> usize + Copy,
        mut give: impl FnMut(&Cut<'_>),
    ) -> &'a [u8] {
        let (times, arrived);
        let (cut, rest) = match self.whole(bytes, wants) {
            Some((head, payload, behind)) => {
                (times, arrived) = ([time], [HEADER as u32 + head.length]);
                (Cut { head, payload, times: &times, arrived: &arrived }, behind)
            }
            None => {
                let behind = self.on(bytes, time, wants);
                match self.unfinished().filter(|_| self.rest == 0) {
                    Some(cut) => (cut, behind),
                    None => return behind,
                }
            }
        };
        give(&cut); // at one place, so that it is made a part of this
        if self.begun > 0 {
            self.let_go();
        }
        rest
    }

    /// The bytes behind the preface.
    #[inline]
    fn behind_preface<'a>(&mut self, bytes: &'a [u8]) -> &'a [u8] {
        match self.preface == PREFACE.len() {
            false => self.preface(bytes),
            true if self.is_other => &[],
            true => bytes,
        }
    }

    fn preface<'a>(&mut self, bytes: &'a [u8]) -> &'a [u8] {
        let wanted = &PREFACE[self.preface..];
        let length = wanted.len().min(bytes.len());
        let (front, behind) = bytes.split_at(length);
        self.is_other |= front != &wanted[..length];
        self.preface += length;
        if self.is_other {
            &[]
        } else {
            behind
        }
    }

    /// A frame that begins and ends within these bytes, with what of its payload is wanted, and the bytes behind it.
    #[inline(always)]
    fn whole<'a>(&self, bytes: &'a [u8], wants: impl Fn(&Head) -> usize) -> Option<(Head, &'a [u8], &'a [u8])> {
        if self.begun > 0 {
            return None;
        }
        let head = Head::of(bytes.get(..HEADER)?.try_into().ok()?);
        let end = HEADER + head.length as usize;
        let payload = bytes.get(HEADER..end)?;
        Some((head, &payload[..payload.len().min(wants(&head))], &bytes[end..]))
    }

    /// Goes on with a frame that has begun, or begins here. Answers the bytes behind it.
    #[inline(never)]
    fn on<'a>(&mut self, bytes: &'a [u8], time: Nanos, wants: impl Fn(&Head) -> usize) -> &'a [u8] {
        if self.begun == 0 {
            self.times.clear();
            self.arrived.clear();
            self.kept.clear();
        }
        self.note(time);
        let mut bytes = bytes;
        if self.begun < HEADER {
            let length = bytes.len().min(HEADER - self.begun);
            let (front, behind) = bytes.split_at(length);
            self.header[self.begun..self.begun + length].copy_from_slice(front);
            self.begun += length;
            bytes = behind;
            if self.begun < HEADER {
                self.reached(self.begun as u32);
                return bytes;
            }
            self.rest = Head::of(&self.header).length as usize;
        }
        let head = Head::of(&self.header);
        let (front, behind) = bytes.split_at(bytes.len().min(self.rest));
        let wanted = wants(&head).saturating_sub(self.kept.len());
        self.kept.extend_from_slice(&front[..front.len().min(wanted)]);
        self.rest -= front.len();
        self.reached(HEADER as u32 + head.length - self.rest as u32);
        behind
    }

    /// Ends the frame that was begun, and keeps no room that few frames need.
    fn let_go(&mut self) {
        self.begun = 0;
        if self.kept.capacity() > MOST_ROOM {
            self.kept = Vec::new();
        }
        if self.times.capacity() > MOST_ROOM {
            self.times = Vec::new();
            self.arrived = Vec::new();
        }
    }

    /// So many bytes of the frame came by the last time.
    fn reached(&mut self, bytes: u32) {
        self.arrived.resize(self.times.len(), 0);
        self.arrived.iter_mut().next_back().into_iter().for_each(|last| *last = bytes);
    }

    fn note(&mut self, time: Nanos) {
        if self.times.last() == Some(&time) {
            return;
        }
        if self.times.len() == MOST_TIMES {
            self.times.pop();
        }
        self.times.push(time);
    }
}

#[cfg(test)]
mod tests {
    use super::*;

    /// Frames by length, kind, stream, payload as far as it is wanted, times, and bytes that had come by then.
    type Seen = Vec<(u32, u8, u32, Vec<u8>, Vec<Nanos>, Vec<u32>)>;

    fn frame(kind: u8, flags: u8, stream: u32, payload: &[u8]) -> Vec<u8> {
        let length = (payload.len() as u32).to_be_bytes();
        [&length[1..], &[kind, flags], &stream.to_be_bytes(), payload].concat()
    }

    fn cut(cutter: &mut Cutter, wanted: usize, pieces: &[&[u8]]) -> Seen {
        let mut seen = Seen::new();
        for (time, piece) in pieces.iter().enumerate() {
            cutter.take(
                piece,
                time as Nanos,
                |_| wanted,
                |cut| {
                    let Head { length, kind, stream, .. } = cut.head;
                    seen.push((length, kind, stream, cut.payload.to_vec(), cut.times.to_vec(), cut.arrived.to_vec()));
                },
            );
        }
        seen
    }

    #[test]
    fn frames_in_pieces_of_any_length() {
        let bytes = [&PREFACE[..], &frame(4, 0, 0, &[]), &frame(0, 0, 1 << 31 | 5, b"abcdef"), &frame(9, 0, 7, b"x")];
        let bytes = [&bytes.concat()[..], &frame(0, 0, 9, b"cut")[..11]].concat();
        for length in 1..bytes.len() {
            let mut cutter = Cutter::new(true);
            let pieces: Vec<&[u8]> = bytes.chunks(length).collect();
            let seen = cut(&mut cutter, 4, &pieces);
            let found: Vec<_> = seen.iter().map(|one| (one.0, one.1, one.2, &one.3[..])).collect();
            assert_eq!(found, [(0, 4, 0, &b""[..]), (6, 0, 5, b"abcd"), (1, 9, 7, b"x")]);
            for (at, (begin, end)) in [(24, 33), (33, 48), (48, 58)].into_iter().enumerate() {
                let packets = begin / length..=(end - 1) / length;
                let arrived = packets.clone().map(|packet| ((packet + 1) * length).min(end) - begin);
                assert_eq!(seen[at].5, arrived.map(|bytes| bytes as u32).collect::<Vec<_>>(), "{length}");
                assert_eq!(seen[at].4, packets.map(|packet| packet as Nanos).collect::<Vec<_>>(), "{length}");
            }
            assert_eq!(cutter.cut_frame().map(|cut| cut.0), Some(9));
            assert_eq!(cutter.unfinished().and_then(|cut| cut.arrived.last().copied()), Some(11));
            assert!(cutter.has_preface() && !cutter.is_other());
        }
    }

    #[test]
    fn another_preface() {
        let mut cutter = Cutter::new(true);
        assert!(cut(&mut cutter, 0, &[b"PRI * HTTP/1", b".1\r\n"]).is_empty());
        assert!(cutter.is_other() && cutter.cut_frame().is_none());
    }

    #[test]
    fn bodies_that_cannot_be_read() {
        let body = |flags: u8, payload: &[u8], fields| {
            let head = Head { length: payload.len() as u32, kind: 1, flags, stream: 1 };
            Cut { head, payload, times: &[], arrived: &[] }.body(fields)
        };
        assert_eq!(body(0, b"", 0), Some((0, 0)));
        assert_eq!(body(flag::PADDED, b"", 0), None);
        assert_eq!(body(flag::PADDED, &[1, 9, 9], 0), Some((1, 2)));
        assert_eq!(body(flag::PADDED, &[2, 9, 9], 0), Some((1, 1)));
        assert_eq!(body(flag::PADDED, &[3, 9, 9], 0), None);
        assert_eq!((body(0, &[0; 4], 5), body(0, &[0; 5], 5)), (None, Some((5, 5))));
        assert_eq!((body(flag::PADDED, &[1; 6], 5), body(flag::PADDED, &[0; 6], 5)), (None, Some((6, 6))));
    }
}
