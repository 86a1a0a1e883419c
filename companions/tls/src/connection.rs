//! Reads the plaintext of a TLS connection, from its records in the order in which they were completed.
//!
//! Which keys a record needs is known by what both sides said before it (RFC 8446, 2 and 4; RFC 5246, 7.3). A record
//! whose keys depend on something that has not come yet waits, and with it all later plaintext, so that this keeps the
//! order of completion.

mod joined;
mod queue;

use captures::{Arrival, Flow};

use crate::handshake::{Handshake, Stage};
use crate::key_log::Keys;
use crate::middle::Middle;
use crate::reason::Reason;
use crate::records::{Header, Records};
use crate::search::Search;
use crate::sessions::Sessions;
use crate::{CLIENT, SERVER};
use queue::Queue;

const MOST_WAITING: usize = 64 << 20;

/// What all connections share.
#[derive(Default)]
pub struct Shared {
    pub keys: Keys,
    /// Whether more keys may come in the capture.
    pub more_keys: bool,
    pub sessions: Sessions,
    /// The search for what opens connections whose hellos were not seen.
    pub search: Search,
    /// Where the content of a record stands while it is handed on.
    room: Vec<u8>,
}

/// What takes plaintext.
pub trait Emit {
    /// Takes the content of a record of a side, which this packet completed.
    fn emit(&mut self, side: usize, content: &[u8], arrival: Arrival);
}

/// One side: its bytes, its records, and how far its plaintext goes.
#[derive(Default)]
pub struct Side {
    flow: Flow,
    records: Records,
    /// Bytes of a record that the capture begins within.
    skipped: usize,
    end: Option<(Reason, Arrival)>,
}

impl Side {
    /// The bytes of TCP.
    #[inline]
    pub fn flow(&self) -> &Flow {
        &self.flow
    }

    /// How many bytes at the end make no whole record.
    pub fn tail(&self) -> usize {
        self.records.held()
    }

    /// How many bytes stand before the first border of records, of a connection that is read from its middle on.
    pub fn skipped(&self) -> usize {
        self.skipped
    }

    /// Why reading ended before the bytes did, and at which packet.
    #[inline]
    pub fn end(&self) -> Option<(Reason, Arrival)> {
        self.end
    }
}

/// Takes the segments of both sides, and emits plaintext.
pub struct TlsConnection {
    handshake: Handshake,
    sides: [Side; 2],
    /// What waits of a connection that is read from its middle on; none where both sides are settled.
    middle: Option<Box<Middle>>,
    /// None where nothing waits.
    queue: Option<Box<Queue>>,
    refused: Option<Reason>,
    count: u64,
    /// Which sides had no hole when nothing more of it was read.
    is_whole: [bool; 2],
}

impl TlsConnection {
    /// A connection with this number; connections count in the order of openings.
    pub fn new(number: u64, shared: &Shared) -> TlsConnection {
        TlsConnection {
            handshake: Handshake::new(number, shared.more_keys),
            sides: Default::default(),
            middle: None,
            queue: None,
            refused: None,
            count: 0,
            is_whole: [false; 2],
        }
    }

    #[inline]
    pub fn handshake(&self) -> &Handshake {
        &self.handshake
    }

    #[inline]
    pub fn side(&self, index: usize) -> &Side {
        &self.sides[index]
    }

    /// Why nothing of it can be read.
    #[inline]
    pub fn refused(&self) -> Option<Reason> {
        self.refused
    }

    /// Records of application data that held some.
    pub fn count(&self) -> u64 {
        self.count
    }

    /// How many bytes wait: for keys, for what opens the sides, or behind holes.
    pub fn waiting(&self) -> usize {
        let queued = self.queue.as_ref().map_or(0, |queue| queue.bytes);
        let held: usize = self.sides.iter().map(|side| side.flow.cost()).sum();
        queued + held + self.middle.as_ref().map_or(0, |middle| middle.cost())
    }

    #[inline]
    pub fn is_waiting(&self) -> bool {
        self.queue.is_some() || self.middle.is_some()
    }

    /// Takes bytes at an offset of a side.
    #[inline]
    pub fn segment(
        &mut self,
        shared: &mut Shared,
        out: &mut dyn Emit,
        index: usize,
        offset: u32,
        data: &[u8],
        arrival: Arrival,
    ) {
        if self.refused.is_some() || self.sides[index].end.is_some() {
            return;
        }
        let data = self.sides[index].flow.add(offset, data, arrival);
        if data.is_empty() {
            return;
        }
        match &mut self.middle {
            Some(middle) if middle.waits(index) => {
                middle.add(index, &data, arrival);
                self.settle(shared, out, false);
            }
            _ => self.cut(shared, out, index, &data, arrival),
        }
    }

    /// Cuts the next bytes of a side into records.
    fn cut(&mut self, shared: &mut Shared, out: &mut dyn Emit, index: usize, data: &[u8], arrival: Arrival) {
        let mut records = std::mem::take(&mut self.sides[index].records);
        records.add(data, |header, body| self.record(shared, out, index, arrival, header, body));
        if self.refused.is_none() {
            let is_broken = records.is_broken();
            self.sides[index].records = records;
            if is_broken {
                self.stop(&shared.keys, index, Reason::NotTls, arrival);
            }
        }
    }

    fn record(
        &mut self,
        shared: &mut Shared,
        out: &mut dyn Emit,
        index: usize,
        arrival: Arrival,
        header: &Header,
        body: &[u8],
    ) {
        if self.refused.is_some() || self.sides[index].end.is_some() {
            return;
        }
        if self.queue.is_none() {
            let mut room = std::mem::take(&mut shared.room);
            let content = self.read(shared, index, arrival, header, body, &mut room);
            if let Some(length) = content {
                self.deliver(out, index, &room[..length], arrival);
            }
            shared.room = room;
            if content.is_some() {
                return;
            }
        }
        self.queue.get_or_insert_with(Default::default).add(index, arrival, header, body);
        self.advance(shared, out);
        let waiting = self.queue.as_ref().map_or(0, |queue| queue.bytes);
        if waiting > MOST_WAITING && !self.handshake.waits_for_key() {
            self.stop(&shared.keys, index, Reason::HandshakeUnfinished, arrival);
        }
    }

    fn deliver(&mut self, out: &mut dyn Emit, side: usize, content: &[u8], arrival: Arrival) {
        if !content.is_empty() && self.refused.is_none() {
            self.count += 1;
            out.emit(side, content, arrival);
        }
    }

    /// The content of a record; none where it has to wait, and nothing where its side ends.
    fn read(
        &mut self,
        shared: &mut Shared,
        index: usize,
        arrival: Arrival,
        header: &Header,
        body: &[u8],
        room: &mut Vec<u8>,
    ) -> Option<usize> {
        self.handshake.read(shared, index, header, body, room).unwrap_or_else(|why| {
            self.stop(&shared.keys, index, why, arrival);
            Some(0)
        })
    }

    /// Reads what can be read by now, and delivers it up to the first record that still waits.
    pub fn advance(&mut self, shared: &mut Shared, out: &mut dyn Emit) {
        let mut has_moved = true;
        while has_moved && self.refused.is_none() {
            has_moved = false;
            for index in [CLIENT, SERVER] {
                while self.read_first(shared, index) {
                    has_moved = true;
                }
            }
        }
        while let Some(first) = self.queue.as_mut().and_then(|queue| queue.take_read()) {
            self.deliver(out, first.side, &first.content.unwrap_or_default(), first.arrival);
        }
        if self.queue.as_ref().map_or(false, |queue| queue.records.is_empty()) {
            self.queue = None;
        }
    }

    /// Reads the first record of a side that was not read, and says whether that was possible.
    fn read_first(&mut self, shared: &mut Shared, index: usize) -> bool {
        let number = self.queue.as_ref().and_then(|queue| queue.unread[index].front().copied());
        let waiting = number.and_then(|number| self.queue.as_mut()?.get_mut(number));
        let (arrival, header, body) = match waiting {
            None => return false,
            Some(waiting) => (waiting.arrival, waiting.header, std::mem::take(&mut waiting.body)),
        };
        let mut room = std::mem::take(&mut shared.room);
        let length = self.read(shared, index, arrival, &header, &body, &mut room);
        if let (Some(queue), Some(number)) = (&mut self.queue, number) {
            if length.is_some() && queue.unread[index].front() == Some(&number) {
                queue.unread[index].pop_front();
            }
            if let Some(waiting) = queue.get_mut(number) {
                match length {
                    Some(length) => waiting.content = Some(room[..length].to_vec()),
                    None => waiting.body = body,
                }
            }
        }
        shared.room = room;
        length.is_some()
    }

    /// Ends a side; where no record of the connection was ever opened, and none of the other side can be, all of it.
    fn stop(&mut self, keys: &Keys, index: usize, why: Reason, arrival: Arrival) {
        self.sides[index].end.get_or_insert((why, arrival));
        let goes_on = why == Reason::NoKey && self.handshake.can_read(1 - index, keys);
        if self.handshake.opened() == 0 && !goes_on {
            self.refuse(why);
        } else if let Some(queue) = &mut self.queue {
            queue.end(index);
        }
    }

    fn refuse(&mut self, why: Reason) {
        self.refused = Some(why);
        (self.queue, self.middle) = (None, None);
        for side in &mut self.sides {
            (side.flow, side.records) = Default::default();
        }
    }

    /// Ends the connection with the capture: no further key comes, and nothing that was lost.
    pub fn finish(&mut self, shared: &mut Shared, out: &mut dyn Emit, known: &Known) {
        if self.refused.is_some() {
            return;
        }
        self.handshake.expect_no_key();
        self.settle(shared, out, true);
        if matches!(self.refused, Some(Reason::Tail(_))) && known.is_snapped {
            self.refused = Some(Reason::Snapped);
        }
        self.advance(shared, out);
        for index in [CLIENT, SERVER] {
            let first = self.queue.as_mut().and_then(|queue| {
                let number = *queue.unread[index].front()?;
                queue.get_mut(number)
            });
            let arrival = first.map(|waiting| waiting.arrival).filter(|_| self.handshake.opened() > 0);
            if let Some(arrival) = arrival {
                self.stop(&shared.keys, index, Reason::HandshakeUnfinished, arrival);
            }
        }
        self.advance(shared, out);
        if self.refused.is_none() && self.count == 0 && !self.handshake.is_joined() {
            self.refused = self.why_nothing(known);
        }
    }

    /// Why there is no plaintext; none where the handshake was whole, and nothing was said.
    fn why_nothing(&self, known: &Known) -> Option<Reason> {
        let ends = self.sides.iter().find_map(|side| side.end).map(|(why, _)| why);
        let hole = self.sides.iter().find(|side| side.flow.has_hole()).map(|side| side.flow.next());
        let tail = self.sides.iter().map(|side| side.records.held()).find(|held| *held > 0);
        let alert = self.handshake.alert().map_or(Reason::HandshakeUnfinished, Reason::Alert);
        if !known.has_answer {
            return Some(Reason::NoHandshake);
        }
        match ends {
            Some(Reason::NoKey) if self.client_gave_up(known) => return Some(alert),
            Some(why) => return Some(why),
            None => {}
        }
        if known.is_snapped && (hole.is_some() || tail.is_some()) {
            return Some(Reason::Snapped);
        }
        if let Some(offset) = hole {
            return Some(Reason::Gap(offset));
        }
        if let Some(length) = tail {
            return Some(Reason::Tail(length));
        }
        let is_whole = [CLIENT, SERVER].iter().all(|side| self.handshake.stage(*side) == Stage::Traffic);
        (!is_whole).then_some(alert)
    }

    /// Whether the client ended the handshake before it had keys for what its server said first.
    fn client_gave_up(&self, known: &Known) -> bool {
        let has_ended = self.handshake.alert().is_some() || known.has_client_ended;
        let is_read = self.sides[CLIENT].end.is_none() && self.handshake.opened() > 0;
        has_ended && is_read && self.handshake.stage(CLIENT) != Stage::Traffic
    }
}

/// What TCP says of a connection at its end.
#[derive(Clone, Copy, Debug)]
pub struct Known {
    pub is_snapped: bool,
    /// Whether the server's SYN ACK came.
    pub has_answer: bool,
    /// Whether the client's FIN or RST came.
    pub has_client_ended: bool,
}
