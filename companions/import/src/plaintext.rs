//! The plaintext of a connection, as segments that its sides would have sent without TLS.

use captures::{made_headers, Arrival, Ends, END_OF_OFFSETS, MADE_HEADERS};
use tls::{Emit, CLIENT, SERVER, TLS_1_2};

use crate::listener::{Sender, Written};
use crate::outcomes::{Became, End, Read, SideRead};
use crate::sink::Sink;

/// The flags of a segment of plaintext.
pub const PUSH_AND_ACK: u8 = 0x18;

/// Ends and numbers of a connection, of which the plaintext that is written has its own.
pub struct Numbers {
    pub connection: usize,
    /// Its pair's last connection, where that is another one.
    pub later: Option<Later>,
    pub ends: [Ends; 2],
    pub initial: [Option<u32>; 2],
    pub sent: [u32; 2],
}

/// A later connection of the same pair: to h2audit what is written of the pair from its opening on belongs to it.
#[derive(Clone, Copy)]
pub struct Later {
    pub connection: usize,
    /// Which side of it client and server are.
    pub sides: [usize; 2],
}

/// What became of a connection of TLS, at its end, of which so many bytes are written; and of each side the first
/// packet behind bytes that were lost.
pub fn became(tls: &tls::TlsConnection, sent: [u32; 2]) -> (Became, [Option<Arrival>; 2]) {
    if let Some(why) = tls.refused() {
        return (Became::Refused(why), [None; 2]);
    }
    let roles = tls.client().map_or([CLIENT, SERVER], |client| [client, 1 - client]);
    let [client, server] = roles.map(|index| side_read(tls.side(index), sent[index]));
    let known = tls.handshake();
    let (early_records, rejected_records) = known.early_data();
    let read = Became::Read(Box::new(Read {
        version: if known.version() == Some(TLS_1_2) { "1.2" } else { "1.3" },
        suite: known.suite().map_or("-", |suite| suite.name),
        protocol: known.protocol().map(<[u8]>::to_vec),
        records: tls.count(),
        early_records,
        rejected_records,
        skipped: known.is_joined().then(|| roles.map(|index| tls.side(index).skipped())),
        client,
        server,
    }));
    (read, [CLIENT, SERVER].map(|index| lost_of(tls.side(index))))
}

fn lost_of(side: &tls::Side) -> Option<Arrival> {
    side.end().map(|(_, arrival)| arrival).or_else(|| side.flow().behind_hole())
}

/// How far a side's plaintext goes.
fn side_read(side: &tls::Side, bytes: u32) -> SideRead {
    let has_gap = lost_of(side).is_some();
    let tail = if side.end().is_none() { side.tail() } else { 0 };
    let end = match side.end() {
        Some((why, _)) => End::Stopped(why),
        None if has_gap => End::Lost,
        None if tail > 0 && side.flow().next() == END_OF_OFFSETS => End::TooLarge,
        None if tail > 0 => End::Cut,
        None => End::Whole,
    };
    SideRead { bytes, has_gap, tail, end }
}

/// Takes plaintext to the capture that is made.
pub struct Plain<'a, 'b> {
    pub numbers: &'a mut Numbers,
    pub sink: &'a mut Sink<'b>,
}

impl Plain<'_, '_> {
    /// Writes a byte past what was lost of each side, so that h2audit says that there is a hole.
    pub fn lose(&mut self, lost: [Option<Arrival>; 2]) {
        for (index, arrival) in lost.into_iter().enumerate() {
            let behind = self.numbers.sent[index] + 1;
            arrival.into_iter().for_each(|arrival| self.numbers.write(self.sink, index, behind, b"\0", arrival));
        }
    }
}

impl Emit for Plain<'_, '_> {
    fn emit(&mut self, side: usize, content: &[u8], arrival: Arrival) {
        let offset = self.numbers.sent[side];
        self.numbers.sent[side] = offset.wrapping_add(content.len() as u32);
        self.numbers.write(self.sink, side, offset, content, arrival);
    }
}

impl Numbers {
    /// Writes a segment of these bytes, as its side would have sent them without TLS.
    fn write(&self, sink: &mut Sink<'_>, side: usize, offset: u32, content: &[u8], arrival: Arrival) {
        let (ends, other) = (&self.ends[side], 1 - side);
        let next = |initial: u32, sent: u32| initial.wrapping_add(1).wrapping_add(sent);
        let sequence = next(self.initial[side].unwrap_or(0), offset);
        let answer = self.initial[other].map_or(0, |initial| next(initial, self.sent[other]));
        let total = MADE_HEADERS + content.len();
        let flags = PUSH_AND_ACK;
        let headers = made_headers(ends, [sequence, answer], flags, content.len());
        let parts = [&headers[..], content];
        let (start, original) = (MADE_HEADERS, total as u32);
        let segment = Written { sequence, flags, parts, start, end: total, original, is_whole: false };
        sink.emit(arrival, Some(self.sender(sink, side)), segment);
    }

    /// The sender to which segments of a side belong that are written now.
    fn sender(&self, sink: &Sink<'_>, side: usize) -> Sender {
        match self.later.filter(|later| sink.has_opening(later.connection)) {
            Some(Later { connection, sides }) => Sender { connection, side: sides[side] },
            None => Sender { connection: self.connection, side },
        }
    }
}
