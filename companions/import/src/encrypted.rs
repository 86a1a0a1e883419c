//! The records of a connection of TLS 1.3 that began before the capture, and their plaintext, as segments that its
//! sides would have sent without TLS. Their numbers count plaintext alone, from 1 on.

use std::io;

use captures::{flags, made_headers, placed, swapped, Arrival, Ends, Segment, END_OF_OFFSETS};
use joined::{Joiner, Piece};
use tls::{Emit, Known, Reason, Shared};

use crate::outcomes::Became;
use crate::plaintext::{became, PUSH_AND_ACK};
use crate::waiting::{Kept, Known as Datagram, Source};

/// The number of the first byte of plaintext.
const FIRST: u32 = 1;

/// By the flow that sends: 0 is that of the connection's first segment.
pub struct Encrypted {
    tls: tls::TlsConnection,
    ends: [Ends; 2],
    /// The number before the first byte that was captured.
    initial: [Option<u32>; 2],
    /// How many bytes of plaintext came.
    sent: [u32; 2],
    is_snapped: bool,
    last: Arrival,
    batch: Batch,
}

/// Plaintext that came with a segment.
#[derive(Default)]
struct Batch {
    bytes: Vec<u8>,
    /// The side and the length of each part, and the packet that completed it.
    parts: Vec<(usize, usize, Arrival)>,
}

impl Emit for Batch {
    fn emit(&mut self, side: usize, content: &[u8], arrival: Arrival) {
        self.bytes.extend_from_slice(content);
        self.parts.push((side, content.len(), arrival));
    }
}

/// What is known of a connection whose plaintext was written, by client and server.
#[derive(Clone)]
pub struct Decrypted {
    pub became: Became,
    /// Its last packet.
    pub last: Arrival,
    /// The number before each side's first byte that was captured.
    pub initial: [Option<u32>; 2],
}

/// The source of plaintext, and where it is kept.
pub struct Out<'a> {
    pub source: Source,
    pub kept: &'a mut Kept,
}

impl Encrypted {
    /// Begins a pair whose first segment is this one, and has these endpoints.
    pub fn new(pair: usize, shared: &Shared, first: Arrival, ends: Ends) -> Encrypted {
        Encrypted {
            tls: tls::TlsConnection::from_middle(pair as u64, shared),
            ends: [ends, swapped(&ends)],
            initial: [None; 2],
            sent: [0; 2],
            is_snapped: false,
            last: first,
            batch: Batch::default(),
        }
    }

    /// What follows a gap of such a connection, from these numbers of its flows on.
    pub fn behind(tls: tls::TlsConnection, first: Arrival, ends: Ends, starts: [u32; 2]) -> Encrypted {
        Encrypted {
            tls,
            ends: [ends, swapped(&ends)],
            initial: starts.map(|start| Some(start.wrapping_sub(1))),
            sent: [0; 2],
            is_snapped: false,
            last: first,
            batch: Batch::default(),
        }
    }

    /// How many bytes wait.
    pub fn waiting(&self) -> usize {
        self.tls.waiting() + self.batch.bytes.len()
    }

    /// What its records go on with behind a gap.
    pub fn into_tls(self) -> Box<tls::TlsConnection> {
        let mut tls = Box::new(self.tls);
        tls.let_go();
        tls
    }

    /// Whether secrets open its records.
    pub fn is_opened(&self) -> bool {
        self.tls.refused().is_none() && self.tls.client().is_some()
    }

    /// Why nothing opens its records; nothing is said of what has none.
    pub fn refused(&self) -> Option<Reason> {
        self.tls.refused().filter(|_| self.tls.has_records())
    }

    /// Whether nothing more can come of it.
    pub fn is_over(&self) -> bool {
        self.tls.refused().is_some()
    }

    /// Takes a segment of a flow.
    pub fn take(&mut self, shared: &mut Shared, flow: usize, arrival: Arrival, segment: &Segment<'_>) {
        self.last = arrival;
        if segment.flags & (flags::RST | flags::SYN) != 0 || !segment.has_payload() {
            return;
        }
        self.is_snapped |= segment.is_snapped;
        let initial = *self.initial[flow].get_or_insert(segment.sequence.wrapping_sub(1));
        if let Some((offset, data)) = placed(initial, segment.sequence, segment.flags, segment.payload()) {
            self.tls.segment(shared, &mut self.batch, flow, offset, data, arrival);
        }
    }

    /// Takes the end of the capture.
    pub fn finish(&mut self, shared: &mut Shared) {
        let known = Known { is_snapped: self.is_snapped, has_answer: true, has_client_ended: false };
        self.tls.finish(shared, &mut self.batch, &known);
    }

    /// Gives plaintext that came to what joins the connection, and keeps it.
    pub fn give(&mut self, joiner: &mut Joiner, out: &mut Out<'_>) -> io::Result<()> {
        let client = match self.tls.client() {
            Some(client) if !self.batch.parts.is_empty() => client,
            _ => return Ok(()),
        };
        let Batch { bytes, parts } = std::mem::take(&mut self.batch);
        let mut rest = &bytes[..];
        for (flow, length, arrival) in parts {
            let (payload, behind) = rest.split_at(length);
            rest = behind;
            let [sequence, acknowledgement] = self.numbers(flow, 0);
            let acknowledgement = Some(acknowledgement);
            let piece = Piece { arrival, sequence, acknowledgement, flags: PUSH_AND_ACK, identification: 0, payload };
            joiner.opened(client, flow, &piece);
            self.keep(flow, 0, payload, arrival, out)?;
            self.sent[flow] = self.sent[flow].wrapping_add(length as u32);
        }
        Ok(())
    }

    /// The number of what a flow says next, so many bytes later, and what it acknowledges.
    fn numbers(&self, flow: usize, later: u32) -> [u32; 2] {
        let next = |flow: usize| FIRST.wrapping_add(self.sent[flow]);
        [next(flow).wrapping_add(later), next(1 - flow)]
    }

    fn keep(&self, flow: usize, later: u32, payload: &[u8], arrival: Arrival, out: &mut Out<'_>) -> io::Result<()> {
        let numbers = self.numbers(flow, later);
        let headers = made_headers(&self.ends[flow], numbers, PUSH_AND_ACK, payload.len());
        let known = Datagram { source: out.source, flow, arrival, is_plaintext: true, place: None };
        out.kept.keep_bytes(&known, (headers.len() + payload.len()) as u32, [&headers, payload])
    }

    /// What became of it. Where bytes were lost, one past the hole makes h2audit say so.
    pub fn decrypted(&self, out: &mut Out<'_>) -> io::Result<Decrypted> {
        let (read, lost) = became(&self.tls, self.sent);
        for (flow, arrival) in lost.into_iter().enumerate() {
            if let Some(arrival) = arrival.filter(|_| self.sent[flow] < END_OF_OFFSETS) {
                self.keep(flow, 1, b"\0", arrival, out)?;
            }
        }
        let client = self.tls.client().unwrap_or_default();
        let initial = [client, 1 - client].map(|flow| self.initial[flow]);
        Ok(Decrypted { became: read, last: self.last, initial })
    }
}
