//! Finds the first border of records among the bytes of a side that are read from their middle on.
//!
//! Encrypted bytes look like the header of a record of application data at one place in 2^26. So a border is taken
//! where header follows header up to the end of what is there. Each place is looked at once, whatever stands there.

use std::cmp::Reverse;
use std::collections::BTreeMap;

use crate::records::{body_length, Header, ALERT, APPLICATION_DATA, HANDSHAKE, HEADER_LENGTH, LONGEST_BODY};

/// The shortest body of TLS 1.3: a tag of 8 bytes (CCM_8), and the type (RFC 8446, 5.2).
const SHORTEST_BODY: usize = 9;
/// No record is longer, so a border stands before this.
const MOST_BEFORE: usize = HEADER_LENGTH + LONGEST_BODY;
const VERSION: [u8; 2] = [3, 3];

/// Headers that follow each other, from a place on.
#[derive(Clone, Copy, Debug, PartialEq, Eq)]
pub struct Chain {
    pub begin: usize,
    pub headers: usize,
}

impl Chain {
    fn rank(&self) -> (usize, Reverse<usize>) {
        (self.headers, Reverse(self.begin))
    }
}

/// The bytes of a side from an unknown place within a record on, and the chains of headers in them.
#[derive(Default)]
pub struct Borders {
    bytes: Vec<u8>,
    /// From the place of the header that comes next. Where chains meet, the one with most headers goes on.
    chains: BTreeMap<usize, Chain>,
    /// The best chain whose next header was met, of whole records.
    met: Option<Chain>,
    /// Before this place all chains have begun.
    looked: usize,
}

impl Borders {
    pub fn bytes(&self) -> &[u8] {
        &self.bytes
    }

    pub fn into_bytes(self) -> Vec<u8> {
        self.bytes
    }

    pub fn add(&mut self, data: &[u8]) {
        self.bytes.extend_from_slice(data);
        let end = (self.bytes.len() + 1).saturating_sub(HEADER_LENGTH).min(MOST_BEFORE);
        for place in self.looked..end {
            let length = self.header(place).filter(may_begin).map(|header| body_length(&header));
            if let Some(length) = length {
                self.enter(place + HEADER_LENGTH + length, Chain { begin: place, headers: 1 });
            }
        }
        self.looked = self.looked.max(end);
        self.follow();
    }

    fn header(&self, place: usize) -> Option<Header> {
        self.bytes.get(place..place + HEADER_LENGTH)?.try_into().ok()
    }

    fn enter(&mut self, next: usize, chain: Chain) {
        let there = self.chains.entry(next).or_insert(chain);
        if chain.rank() > there.rank() {
            *there = chain;
        }
    }

    /// Takes each chain as far as there are headers.
    fn follow(&mut self) {
        while let Some((&place, &chain)) = self.chains.iter().next() {
            let header = match self.header(place) {
                None => break,
                Some(header) => header,
            };
            self.chains.remove(&place);
            if may_follow(&header) {
                self.met = self.met.into_iter().chain([chain]).max_by_key(Chain::rank);
                let next = place + HEADER_LENGTH + body_length(&header);
                self.enter(next, Chain { headers: chain.headers + 1, ..chain });
            }
        }
    }

    /// The chain with most whole records, behind which only the beginning of one more stands; none without a record.
    pub fn best(&self) -> Option<Chain> {
        let length = self.bytes.len();
        let at_end = self.chains.range(..=length).filter(|(&place, _)| may_follow_cut(&self.bytes[place..]));
        at_end.map(|(_, chain)| *chain).chain(self.met).max_by_key(Chain::rank)
    }

    /// Whether no border can come any more.
    pub fn is_hopeless(&self) -> bool {
        self.looked == MOST_BEFORE && self.chains.is_empty() && self.met.is_none()
    }
}

fn may_begin(header: &Header) -> bool {
    header[0] == APPLICATION_DATA && may_follow(header) && body_length(header) >= SHORTEST_BODY
}

/// Behind application data TLS 1.2 has alerts and handshakes too.
fn may_follow(header: &Header) -> bool {
    may_follow_cut(&header[..3]) && (1..=LONGEST_BODY).contains(&body_length(header))
}

/// Whether these bytes, less than a header, may begin one.
fn may_follow_cut(bytes: &[u8]) -> bool {
    let is_kind = |kind: &u8| matches!(*kind, APPLICATION_DATA | ALERT | HANDSHAKE);
    bytes.first().map_or(true, is_kind) && bytes.iter().skip(1).zip(VERSION).all(|(byte, wanted)| *byte == wanted)
}

#[cfg(test)]
mod tests {
    use std::time::{Duration, Instant};

    use mutations::Dice;

    use super::*;

    /// Each place at which records may begin, and how many are whole before another header, or before the end.
    fn by_walking(bytes: &[u8]) -> Option<Chain> {
        let header = |place: usize| -> Option<Header> { bytes.get(place..place + HEADER_LENGTH)?.try_into().ok() };
        let mut found = Vec::new();
        for begin in (0..bytes.len().min(MOST_BEFORE)).filter(|place| header(*place).as_ref().map_or(false, may_begin))
        {
            let (mut place, mut headers) = (begin, 0);
            while let Some(next) = header(place).filter(may_follow) {
                found.extend((headers > 0).then_some(Chain { begin, headers }));
                place += HEADER_LENGTH + body_length(&next);
                headers += 1;
            }
            if place <= bytes.len() && place + HEADER_LENGTH > bytes.len() && may_follow_cut(&bytes[place..]) {
                found.push(Chain { begin, headers });
            }
        }
        found.into_iter().max_by_key(Chain::rank)
    }

    /// Bytes of which many look like headers, in pieces, beside a walk from each place.
    #[test]
    fn chains_are_those_of_a_walk() {
        let mut found = [0; 4];
        for number in 0..30_000 {
            let mut dice = Dice::of(1, number);
            let (mut bytes, mut borders) = (Vec::new(), Borders::default());
            for _ in 0..1 + dice.below(12) {
                let piece: Vec<u8> = match dice.below(3) {
                    0 => (0..dice.below(9)).map(|_| dice.below(256) as u8).collect(),
                    1 => vec![0x17; dice.below(4)],
                    _ => {
                        let length = 7 + dice.below(8);
                        let header = [*dice.of_these(&[0x17, 0x17, 0x15, 0x14]), 3, 3, 0, length as u8];
                        [&header[..], &vec![7; length - dice.below(10) / 9]].concat()
                    }
                };
                bytes.extend_from_slice(&piece);
                borders.add(&piece);
            }
            assert_eq!(borders.best(), by_walking(&bytes), "{bytes:02x?}");
            assert_eq!(borders.bytes(), bytes);
            found[borders.best().map_or(0, |chain| chain.headers.min(3))] += 1;
        }
        assert!(found.iter().all(|count| *count > 100), "{found:?}");
    }

    fn took(bytes: &[u8], piece: usize) -> Duration {
        let begun = Instant::now();
        let mut borders = Borders::default();
        for part in bytes.chunks(piece) {
            borders.add(part);
            borders.best();
        }
        begun.elapsed()
    }

    /// Each place is looked at once: sixteen times the bytes take far less than 256 times as long, at the best of some
    /// tries, since others use the machine too.
    #[test]
    fn hostile_bytes_take_linear_time() {
        for header in [[0x17, 3, 3, 0, 9], [0x17, 3, 3, 0x40, 0], [0x17, 3, 3, 0, 1], [3, 3, 0x17, 3, 3]] {
            for piece in [1, 1400] {
                let best = |count: usize| (0..5).map(|_| took(&header.repeat(count), piece)).min().unwrap();
                let (short, long) = (best(10_000), best(160_000));
                assert!(long < short * 64 + Duration::from_millis(50), "{header:?} {piece} {short:?} {long:?}");
            }
        }
    }

    #[test]
    fn hopeless_only_without_a_border() {
        let mut borders = Borders::default();
        borders.add(&[0; MOST_BEFORE + 3]);
        assert!(!borders.is_hopeless());
        borders.add(&[0; 1]);
        assert!(borders.is_hopeless());
    }
}
