//! Where the first frame begins of a flow that is met in its middle.
//!
//! Nine bytes that look like the header of a frame are worth bits: as many as it is unlikely that other bytes look so.
//! Headers follow each other by their lengths, to the end of what is there. The chain with most bits wins, if it has
//! enough of them more than its position costs: of n positions each is worth log2 n less. Unusual frames cost bits, and
//! break no chain; a length above what is tried does. Each position is looked at once, so the time is linear.

use cutter::{flag, kind, Head, HEADER};

/// Bits that a chain needs above the cost of its position.
const NEEDED: i32 = 24;
/// Bits that it needs in addition where more bytes may still come.
const EARLY: i32 = 32;
/// The longest frame that is tried first (RFC 9113, 6.5.2), and the longest of all.
const USUAL_FRAME: u32 = 1 << 14;
const LONGEST_FRAME: u32 = (1 << 24) - 1;
/// No header alone is worth more.
const MOST_ALONE: i32 = 56;
/// No chain is worth more, nor less.
const MOST_BITS: i32 = 1 << 29;
/// The bits of a chain with a length that is not tried.
const BROKEN: i32 = -(1 << 30);

/// Where frames begin, and how sure that is.
#[derive(Clone, Copy, Debug, PartialEq, Eq)]
pub struct Border {
    pub at: usize,
    pub bits: u32,
}

/// The border of a flow that begins with these bytes. Where they are not all, more is asked.
pub fn border_of(bytes: &[u8], is_whole: bool) -> Option<Border> {
    let needed = if is_whole { NEEDED } else { NEEDED + EARLY };
    let usual = HEADER + USUAL_FRAME as usize;
    best(bytes, usual, USUAL_FRAME, needed).or_else(|| best(bytes, bytes.len(), LONGEST_FRAME, needed))
}

fn best(bytes: &[u8], positions: usize, longest: u32, needed: i32) -> Option<Border> {
    let mut chains = Chains { bytes, longest, known: vec![0; bytes.len()], path: Vec::new() };
    let mut found: Option<(i32, Border)> = None;
    for at in 0..positions.min(bytes.len().saturating_sub(HEADER - 1)) {
        let cost = cost_of(at);
        let bits = chains.worth(at, needed + cost);
        if bits >= needed + cost && found.map_or(true, |(most, _)| bits - cost > most) {
            found = Some((bits - cost, Border { at, bits: bits as u32 }));
        }
    }
    found.map(|(_, border)| border)
}

/// log2 of how many positions there are up to this one, rounded up.
fn cost_of(at: usize) -> i32 {
    (usize::BITS - at.leading_zeros()) as i32
}

struct Chains<'a> {
    bytes: &'a [u8],
    longest: u32,
    /// What the chain from a position on is worth, doubled and 1 more: 0 is unknown, and costs no memory that is new.
    known: Vec<i32>,
    path: Vec<usize>,
}

impl Chains<'_> {
    /// The bits of the chain from a position on, or less than are wanted where it has less. Positions are asked for in
    /// rising order, and chains lead on, so that only those within a chain are kept.
    fn worth(&mut self, from: usize, wanted: i32) -> i32 {
        match self.at_once(from, wanted) {
            Some(bits) => bits,
            None => self.along(from),
        }
    }

    /// What a chain is worth whose second header is known, or is not there.
    fn at_once(&self, from: usize, wanted: i32) -> Option<i32> {
        let header = header_at(self.bytes, from)?;
        let length = Head::of(header).length;
        if length > self.longest {
            return Some(BROKEN);
        }
        let next = from + HEADER + length as usize;
        let rest = match self.known_at(next) {
            Some(bits) => bits,
            None if header_at(self.bytes, next).is_some() => return None,
            None => 0,
        };
        let is_in_vain = rest == BROKEN || rest + MOST_ALONE < wanted;
        Some(if is_in_vain { BROKEN } else { (rest + worth_of(header)).clamp(-MOST_BITS, MOST_BITS) })
    }

    fn known_at(&self, at: usize) -> Option<i32> {
        self.known.get(at).filter(|known| **known != 0).map(|known| known >> 1)
    }

    fn along(&mut self, from: usize) -> i32 {
        self.path.clear();
        let mut at = from;
        let mut bits = loop {
            let header = match (self.known_at(at), header_at(self.bytes, at)) {
                (Some(known), _) => break known,
                (None, None) => break 0,
                (None, Some(header)) => header,
            };
            let length = Head::of(header).length;
            self.path.push(at);
            if length > self.longest {
                break BROKEN;
            }
            at += HEADER + length as usize;
        };
        for at in self.path.iter().rev() {
            if let (true, Some(header)) = (bits != BROKEN, header_at(self.bytes, *at)) {
                bits = (bits + worth_of(header)).clamp(-MOST_BITS, MOST_BITS);
            }
            self.known[*at] = bits * 2 + 1;
        }
        bits
    }
}

fn header_at(bytes: &[u8], at: usize) -> Option<&[u8; HEADER]> {
    bytes.get(at..at + HEADER)?.try_into().ok()
}

/// What frames of a type are worth.
struct Rule {
    kind: i32,
    /// Which flags it may have, and what having no other one is worth.
    flags: u8,
    without_others: i32,
    /// The one length that it may have, and what another one is worth.
    length: Option<u32>,
    /// On no stream, and on one; where none is told, that is worth the more, the lower its number is.
    without_stream: i32,
    with_stream: Option<i32>,
}

const WRONG_LENGTH: i32 = -8;
const WRONG_FLAGS: i32 = -6;
/// On streams alone, on the connection alone, and on either.
const STREAM: (i32, Option<i32>) = (-30, None);
const CONNECTION: (i32, Option<i32>) = (24, Some(-10));
const EITHER: (i32, Option<i32>) = (24, None);

const fn rule(flags: u8, length: Option<u32>, (without_stream, with_stream): (i32, Option<i32>)) -> Rule {
    let without_others = 8 - flags.count_ones() as i32;
    Rule { kind: 5, flags, without_others, length, without_stream, with_stream }
}

/// By types, from DATA to CONTINUATION. Zeros, which look like DATA, are common.
const RULES: [Rule; 10] = [
    Rule { kind: 2, ..rule(flag::END_STREAM | flag::PADDED, None, STREAM) },
    rule(flag::END_STREAM | flag::END_HEADERS | flag::PADDED | flag::PRIORITY, None, STREAM),
    rule(0, Some(5), STREAM),
    rule(0, Some(4), STREAM),
    rule(flag::ACK, None, CONNECTION),
    rule(flag::END_HEADERS | flag::PADDED, None, STREAM),
    rule(flag::ACK, Some(8), CONNECTION),
    rule(0, None, CONNECTION),
    rule(0, Some(4), EITHER),
    rule(flag::END_HEADERS, None, STREAM),
];
/// The rule of an unknown type, which may have all flags.
const UNKNOWN_KIND: Rule = Rule { kind: -4, without_others: 0, ..rule(0xff, None, (20, None)) };

/// The bits that a header is worth; below 0 where it is unusual.
fn worth_of(header: &[u8; HEADER]) -> i32 {
    let head = Head::of(header);
    let rule = RULES.get(usize::from(head.kind)).unwrap_or(&UNKNOWN_KIND);
    let flags = if head.flags & !rule.flags == 0 { rule.without_others } else { WRONG_FLAGS };
    let reserved = if header[5] & 0x80 == 0 { 1 } else { -4 };
    let stream = match rule.with_stream {
        _ if head.stream == 0 => rule.without_stream,
        Some(bits) => bits,
        None => (27 - (u32::BITS - head.stream.leading_zeros()) as i32).clamp(0, 20),
    };
    rule.kind + length_bits(&head, rule) + flags + stream + reserved
}

fn length_bits(head: &Head, rule: &Rule) -> i32 {
    match (rule.length, head.kind) {
        (Some(length), _) if head.length == length => 18,
        (Some(_), _) => WRONG_LENGTH,
        (None, kind::SETTINGS) if head.has(flag::ACK) => [WRONG_LENGTH, 18][usize::from(head.length == 0)],
        (None, kind::SETTINGS) if head.length % 6 == 0 && head.length <= 192 => 14,
        (None, kind::SETTINGS) => WRONG_LENGTH,
        (None, kind::GOAWAY) if head.length < 8 => WRONG_LENGTH,
        _ if head.length > USUAL_FRAME => WRONG_LENGTH - 2,
        (None, kind::DATA) if head.length == 0 => 4,
        _ => 10,
    }
}

/// The longest record of TLS, with its header (RFC 8446, 5.2).
const LONGEST_RECORD: usize = 5 + (1 << 14) + 256;
const RECORDS: usize = 4;

/// Whether what begins so is records of TLS, from some byte on.
pub fn is_tls(bytes: &[u8]) -> bool {
    let starts = 0..bytes.len().min(LONGEST_RECORD);
    starts.into_iter().any(|at| matches!(bytes[at], 20..=24) && are_records(bytes, at))
}

/// Whether so many records follow each other, the last of which may be cut.
fn are_records(bytes: &[u8], at: usize) -> bool {
    let mut at = at;
    for _ in 0..RECORDS {
        match bytes.get(at..at + 5) {
            Some(&[20..=24, 3, 1..=3, high, low]) => at += 5 + usize::from(u16::from_be_bytes([high, low])),
            _ => return false,
        }
    }
    true
}

#[cfg(test)]
mod tests {
    use super::*;

    pub fn frame(kind: u8, flags: u8, stream: u32, payload: &[u8]) -> Vec<u8> {
        let length = (payload.len() as u32).to_be_bytes();
        [&length[1..], &[kind, flags], &stream.to_be_bytes(), payload].concat()
    }

    fn place(bytes: &[u8]) -> Option<usize> {
        border_of(bytes, true).map(|border| border.at)
    }

    #[test]
    fn a_frame_alone() {
        assert_eq!(place(&frame(8, 0, 0, &[0, 0, 1, 0])), Some(0));
        assert_eq!(place(&frame(8, 0, 5, &[0, 0, 1, 0])), Some(0));
        assert_eq!(place(&frame(1, 4, 3, b"\x82\x84")), Some(0));
        assert_eq!(place(b"\0\0\x04\x08\0\0\0\0"), None, "a header that is cut");
        assert_eq!(place(&[0; 20_000]), None);
        assert_eq!(place(&b"some text, which is no frame. ".repeat(2000)), None);
    }

    /// The cut went through a frame, whatever its content is.
    #[test]
    fn behind_the_rest_of_a_frame() {
        for content in [0, b'a', 0xff] {
            for rest in [1, 8, 9, 10, 1000, 16_384] {
                let bytes =
                    [&vec![content; rest][..], &frame(0, 0, 7, &[content; 500]), &frame(8, 0, 0, &[0, 0, 9, 9])];
                assert_eq!(place(&bytes.concat()), Some(rest), "{content} {rest}");
            }
        }
    }

    #[test]
    fn what_a_header_alone_is_worth() {
        let mut most = 0;
        for kind in 0..=u8::MAX {
            for length in [0, 4, 5, 6, 8, 16_384, 16_385] {
                for (flags, stream) in [0, 1, 4, 5, 0xff].into_iter().flat_map(|flags| [(flags, 0), (flags, 1)]) {
                    let header = frame(kind, flags, stream, &vec![0; length]);
                    most = most.max(worth_of(header_at(&header, 0).unwrap()));
                }
            }
        }
        assert_eq!(most, MOST_ALONE);
    }

    #[test]
    fn unusual_frames_break_no_chain() {
        let odd = [frame(0xbe, 7, 9, b"grease"), frame(0, 0xf0, 1 << 31 | 3, b"x"), frame(8, 0, 1, &[0; 5])].concat();
        let bytes = [frame(6, 1, 0, &[0; 8]), odd, frame(4, 1, 0, b"")].concat();
        assert_eq!(place(&[b"rest", &bytes[..]].concat()), Some(4));
    }

    /// Frames above 16,384 bytes are tried where nothing else is found.
    #[test]
    fn long_frames() {
        let bytes = [frame(0, 0, 1, &[1; 30_000]), frame(0, 0, 1, &[2; 40_000]).repeat(3)].concat();
        assert_eq!(place(&bytes), Some(0));
        assert_eq!(place(&bytes[20_000..]), Some(30_009 - 20_000));
    }

    #[test]
    fn more_is_asked_before_the_end() {
        let one = frame(0, 0, 9, &[7; 100]);
        assert_eq!(border_of(&one, false), None);
        assert_eq!(border_of(&one.repeat(2), false).map(|border| border.at), Some(0));
    }

    #[test]
    fn a_position_costs() {
        assert_eq!([0, 1, 2, 3, 16_392].map(cost_of), [0, 1, 2, 2, 15]);
        let frame = frame(0x0b, 0, 1, b"");
        let worth = worth_of(header_at(&frame, 0).expect("a header"));
        assert!((NEEDED..NEEDED + 8).contains(&worth), "{worth}");
        assert_eq!(place(&[&[0xff; 10][..], &frame].concat()), Some(10).filter(|_| worth >= NEEDED + 4));
        assert_eq!(place(&[&[0xff; 1000][..], &frame].concat()), None);
    }

    #[test]
    fn records_of_tls() {
        let record = [&[23, 3, 3, 0, 100][..], &[9; 100]].concat();
        assert!(is_tls(&[&[0; 77][..], &record.repeat(5)].concat()));
        assert!(!is_tls(&record.repeat(3)));
        assert!(!is_tls(&frame(0, 0, 1, &[23; 16_000])));
    }

    /// Each of a million bytes may begin a chain, and each is looked at once.
    #[test]
    fn the_search_is_linear() {
        let began = std::time::Instant::now();
        for unit in [&[0][..], b"\0\0\x01\0\0\0\0\0\x01\0", b"\0\x40\0\0\0\0\0\0\x01"] {
            border_of(&unit.repeat((1 << 20) / unit.len()), true);
        }
        assert!(began.elapsed().as_secs() < 5);
    }
}
