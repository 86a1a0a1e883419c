//! A connection of the capture, by h2audit's rules (docs/AUDIT_RULES.md, 3), and what is written of it.
//!
//! It is undecided until the first bytes of a side are there: what begins like TLS is read as TLS, all else goes
//! through as it stands. For a TLS connection its openings are written, and a segment for the plaintext of each record.
//! What a proxy put before the bytes is left out.

use captures::{flags, placed, swapped, Arrival, Ends, Flow, HeldSegment, Segment, MOST_HELD};
use tls::{looks_like_tls, Known, Shared, CLIENT, SERVER};

use crate::common::{Came, Common};
use crate::listener::{Sender, Written, HEADERS};
use crate::outcomes::{Became, Outcome};
use crate::plaintext::{became, Later, Numbers, Plain};
use crate::preamble::{look, Looked, Preamble};
use crate::shifted::Shift;
use crate::sink::Sink;

/// A segment that is kept, the packet that brought it, and the side that sent it.
struct Arrived {
    arrival: Arrival,
    side: usize,
    segment: HeldSegment,
    is_made: bool,
}

impl Arrived {
    /// It came with that segment.
    fn came<'a, 'b>(&self, segment: &'a Segment<'b>) -> Came<'a, 'b> {
        Came { arrival: self.arrival, side: self.side, segment }
    }
}

/// What is known of a connection's bytes.
enum Mode {
    Undecided(Option<Box<Undecided>>),
    Clear,
    /// In the clear, behind a preamble.
    Behind(Box<Shift>),
    Tls(Box<tls::TlsConnection>),
}

/// All segments behind the openings, until the first bytes tell.
#[derive(Default)]
struct Undecided {
    flows: [Flow; 2],
    begun: [Vec<u8>; 2],
    held: Vec<Arrived>,
    cost: usize,
}

enum Verdict {
    Wait,
    Clear,
    Tls,
}

/// An opening with all segments that belong to it.
pub struct FollowedConnection {
    opening: u64,
    numbers: Numbers,
    mode: Mode,
    preamble: Option<Preamble>,
    /// In TLS, the segments of a server without its SYN ACK.
    held: Vec<Arrived>,
    cost: usize,
    is_snapped: bool,
    /// The offset of each side's FIN.
    ends_at: [Option<u32>; 2],
    has_client_ended: bool,
    /// Whether the table knows that it waits for a key.
    pub is_listed: bool,
}

impl FollowedConnection {
    /// Begins the connection of this number, which counts from 0 on.
    pub fn new(number: usize, arrival: Arrival, segment: &Segment<'_>) -> FollowedConnection {
        FollowedConnection {
            opening: arrival.packet,
            numbers: Numbers {
                connection: number,
                later: None,
                ends: [segment.ends, swapped(&segment.ends)],
                initial: [Some(segment.sequence), None],
                sent: [0; 2],
            },
            mode: Mode::Undecided(None),
            preamble: None,
            held: Vec::new(),
            cost: 0,
            is_snapped: false,
            ends_at: [None; 2],
            has_client_ended: false,
            is_listed: false,
        }
    }

    /// The endpoints, the client's first.
    pub fn ends(&self) -> &Ends {
        &self.numbers.ends[CLIENT]
    }

    /// The number of the SYN that opened it.
    pub fn initial(&self) -> Option<u32> {
        self.numbers.initial[CLIENT]
    }

    /// How many connections opened before it.
    pub fn number(&self) -> usize {
        self.numbers.connection
    }

    /// Notes its pair's last connection.
    pub fn note_later(&mut self, later: Option<Later>) {
        self.numbers.later = later;
    }

    fn sender(&self, side: usize) -> Option<Sender> {
        Some(Sender { connection: self.numbers.connection, side })
    }

    pub fn is_clear(&self) -> bool {
        matches!(self.mode, Mode::Clear)
    }

    pub fn is_tls(&self) -> bool {
        matches!(self.mode, Mode::Tls(_))
    }

    fn tls(&self) -> Option<&tls::TlsConnection> {
        match &self.mode {
            Mode::Tls(tls) => Some(tls),
            _ => None,
        }
    }

    pub fn take(&mut self, common: &mut Common<'_, '_>, came: &Came<'_, '_>) {
        let Came { arrival, side, segment } = *came;
        let both = flags::SYN | flags::ACK;
        let is_answer = side == SERVER && segment.flags & both == both && self.numbers.initial[SERVER].is_none();
        if is_answer {
            self.numbers.initial[SERVER] = Some(segment.sequence);
        }
        match &self.mode {
            Mode::Undecided(_) => self.take_undecided(common, came, is_answer),
            Mode::Clear | Mode::Behind(_) => self.emit(common.sink, came),
            Mode::Tls(_) if is_answer => {
                common.sink.emit(arrival, self.sender(side), Written::headers(segment, &mut [0; HEADERS]));
                for one in std::mem::take(&mut self.held) {
                    self.take_tls(common, &one.came(&one.segment.segment()));
                }
                self.take_tls(common, came);
            }
            Mode::Tls(_) => self.take_tls(common, came),
        }
    }

    /// Where a segment's payload stands in its side's bytes (RFC 9293, 3.4), and what of it counts.
    fn placed<'a>(&self, side: usize, segment: &Segment<'a>) -> Option<(u32, &'a [u8])> {
        let before = self.preamble.map_or(0, |preamble| preamble.lengths[side]);
        let initial = self.numbers.initial[side]?.wrapping_add(before);
        placed(initial, segment.sequence, segment.flags, segment.payload())
    }

    /// Writes a segment in the clear.
    fn emit(&self, sink: &mut Sink<'_>, came: &Came<'_, '_>) {
        let Came { arrival, side, segment } = *came;
        let mut room = Vec::new();
        let written = match &self.mode {
            Mode::Behind(shift) => shift.written(side, segment, &self.numbers.initial, &mut room),
            _ => Written::whole(segment),
        };
        sink.emit(arrival, self.sender(side), written);
    }

    // Undecided

    fn take_undecided(&mut self, common: &mut Common<'_, '_>, came: &Came<'_, '_>, is_answer: bool) {
        let Came { arrival, side, segment } = *came;
        self.is_snapped |= segment.is_snapped;
        let is_syn = segment.flags & flags::SYN != 0;
        let begun = match &mut self.mode {
            Mode::Undecided(undecided) => undecided.take(),
            _ => None,
        };
        if begun.is_none() && is_syn && !segment.has_payload() {
            self.emit(common.sink, came);
            return;
        }
        let mut undecided = begun.unwrap_or_default();
        undecided.cost += segment.datagram_length();
        undecided.held.push(Arrived { arrival, side, segment: segment.held(), is_made: common.sink.is_made });
        // The answer places what its server sent before it; one that is repeated places nothing new.
        let from = if is_answer { 0 } else { undecided.held.len() - 1 };
        match self.look_at(&mut undecided, side, from) {
            Verdict::Wait if undecided.cost <= MOST_HELD => self.mode = Mode::Undecided(Some(undecided)),
            Verdict::Wait | Verdict::Clear => self.go_on_clear(common.sink, undecided.held),
            Verdict::Tls => self.go_on_tls(common, undecided.held),
        }
    }

    /// Puts the bytes of a side in order, of what is held from a place on, and looks at what has begun.
    fn look_at(&mut self, undecided: &mut Undecided, side: usize, from: usize) -> Verdict {
        let Undecided { flows, begun, held, .. } = undecided;
        for one in held[from..].iter().filter(|one| one.side == side) {
            if let Some((offset, data)) = self.placed(side, &one.segment.segment()) {
                let data = flows[side].add(offset, data, one.arrival);
                if data.is_empty() {
                    continue;
                }
                begun[side].extend_from_slice(&data);
                match self.verdict(begun) {
                    Verdict::Wait => {}
                    decided => return decided,
                }
            }
        }
        Verdict::Wait
    }

    fn verdict(&mut self, begun: &[Vec<u8>; 2]) -> Verdict {
        let lengths = match look(&begun[CLIENT], &begun[SERVER]) {
            Looked::Maybe => return Verdict::Wait,
            Looked::No => [0, 0],
            Looked::Yes(preamble) => preamble.lengths,
        };
        let [client, server] = [CLIENT, SERVER].map(|side| &begun[side][lengths[side] as usize..]);
        if client.is_empty() && server.is_empty() {
            return Verdict::Wait;
        }
        if let Looked::Yes(preamble) = look(&begun[CLIENT], &begun[SERVER]) {
            self.preamble = Some(preamble);
        }
        let is_tls = if client.is_empty() { looks_like_tls(server, true) } else { looks_like_tls(client, false) };
        if is_tls {
            Verdict::Tls
        } else {
            Verdict::Clear
        }
    }

    fn go_on_clear(&mut self, sink: &mut Sink<'_>, held: Vec<Arrived>) {
        self.mode = match self.preamble {
            None => Mode::Clear,
            Some(preamble) => Mode::Behind(Box::new(Shift::new(preamble.lengths))),
        };
        let is_made = sink.is_made;
        for one in &held {
            sink.is_made = one.is_made;
            self.emit(sink, &one.came(&one.segment.segment()));
        }
        sink.is_made = is_made;
    }

    fn go_on_tls(&mut self, common: &mut Common<'_, '_>, held: Vec<Arrived>) {
        common.sink.depart();
        self.mode = Mode::Tls(Box::new(tls::TlsConnection::new(self.number() as u64, common.shared)));
        let is_made = common.sink.is_made;
        for one in held {
            let segment = one.segment.segment();
            common.sink.is_made = one.is_made;
            if segment.flags & flags::SYN != 0 {
                common.sink.emit(one.arrival, self.sender(one.side), Written::headers(&segment, &mut [0; HEADERS]));
            }
            common.sink.is_made = false;
            self.take_tls(common, &one.came(&segment));
        }
        common.sink.is_made = is_made;
    }

    // TLS

    fn take_tls(&mut self, common: &mut Common<'_, '_>, came: &Came<'_, '_>) {
        let Came { arrival, side, segment } = *came;
        self.has_client_ended |= side == CLIENT && segment.flags & (flags::FIN | flags::RST) != 0;
        let initial = self.numbers.initial[side];
        if let Some(initial) = initial.filter(|_| segment.flags & flags::FIN != 0) {
            let before = self.preamble.map_or(0, |preamble| preamble.lengths[side]);
            let length = (segment.end - segment.start) as u32;
            self.ends_at[side] =
                Some(segment.sequence.wrapping_add(length).wrapping_sub(initial).wrapping_sub(1).wrapping_sub(before));
        }
        if !segment.has_payload() || self.tls().map_or(true, |tls| tls.refused().is_some()) {
            return;
        }
        self.is_snapped |= segment.is_snapped;
        if initial.is_none() {
            self.hold(came);
            return;
        }
        let placed = self.placed(side, segment);
        if let (Some((offset, data)), Mode::Tls(tls)) = (placed, &mut self.mode) {
            let mut plain = Plain { numbers: &mut self.numbers, sink: common.sink };
            tls.segment(common.shared, &mut plain, side, offset, data, arrival);
        }
    }

    /// Whether nothing more is to be told of it: it is refused, or all bytes up to both sides' FIN are there, and read.
    /// What may still come repeats some of them.
    pub fn is_over(&self) -> bool {
        let tls = match self.tls() {
            Some(tls) if self.numbers.initial[SERVER].is_some() => tls,
            _ => return false,
        };
        if tls.refused().is_some() {
            return true;
        }
        let is_at_end = |side: usize| self.ends_at[side] == Some(tls.side(side).flow().next());
        !tls.is_waiting() && is_at_end(CLIENT) && is_at_end(SERVER)
    }

    /// Whether its end would write nothing, and no more is known to be missing.
    pub fn is_quiet(&self) -> bool {
        let is_whole =
            |tls: &tls::TlsConnection, side: usize| tls.side(side).end().is_none() && !tls.side(side).flow().has_hole();
        self.tls().map_or(false, |tls| {
            !tls.is_waiting()
                && self.numbers.initial[SERVER].is_some()
                && is_whole(tls, CLIENT)
                && is_whole(tls, SERVER)
        })
    }

    pub fn waits_for_key(&self) -> bool {
        self.tls().map_or(false, |tls| tls.handshake().waits_for_key())
    }

    /// The client's random, by which its keys are known.
    pub fn random(&self) -> Option<tls::Random> {
        self.tls().and_then(|tls| tls.handshake().client_random())
    }

    /// Asks for the secret of an earlier session, where it waits for one.
    pub fn resume(&self, shared: &mut Shared) {
        if let Some(tls) = self.tls().filter(|tls| tls.handshake().is_resumed(&shared.keys)) {
            tls.handshake().resume(shared);
        }
    }

    /// Goes on with what waited for keys.
    pub fn advance(&mut self, common: &mut Common<'_, '_>) {
        if let Mode::Tls(tls) = &mut self.mode {
            tls.advance(common.shared, &mut Plain { numbers: &mut self.numbers, sink: common.sink });
        }
    }

    /// Keeps what cannot be placed before the server's SYN ACK; past a limit that is not waited for.
    fn hold(&mut self, came: &Came<'_, '_>) {
        let Came { arrival, side, segment } = *came;
        self.cost += segment.datagram_length();
        if self.cost <= MOST_HELD {
            self.held.push(Arrived { arrival, side, segment: segment.held(), is_made: false });
        } else {
            self.held = Vec::new();
        }
    }

    // The end

    /// What its records go on with behind a gap, of TLS that has one and is joined.
    pub fn take_tls_with_gap(&mut self, is_joining: bool) -> Option<Box<tls::TlsConnection>> {
        let has_gap = |tls: &tls::TlsConnection| [CLIENT, SERVER].iter().any(|side| tls.side(*side).flow().has_hole());
        match std::mem::replace(&mut self.mode, Mode::Undecided(None)) {
            Mode::Tls(mut tls) if is_joining && has_gap(&tls) => {
                tls.let_go();
                Some(tls)
            }
            mode => {
                self.mode = mode;
                None
            }
        }
    }

    /// Ends the connection with the capture, and says what became of it.
    pub fn finish(&mut self, common: &mut Common<'_, '_>) -> Outcome {
        if let Mode::Undecided(undecided) = &mut self.mode {
            let held = undecided.take().map_or_else(Vec::new, |undecided| undecided.held);
            self.go_on_clear(common.sink, held);
        }
        let became = match &mut self.mode {
            Mode::Tls(tls) => {
                let known = Known {
                    is_snapped: self.is_snapped,
                    has_answer: self.numbers.initial[SERVER].is_some(),
                    has_client_ended: self.has_client_ended,
                };
                let mut plain = Plain { numbers: &mut self.numbers, sink: common.sink };
                tls.finish(common.shared, &mut plain, &known);
                let (became, lost) = became(tls, plain.numbers.sent);
                plain.lose(lost);
                became
            }
            _ => Became::Clear,
        };
        let preamble = self.preamble.filter(|_| !matches!(became, Became::Refused(_)));
        // Fragments, and packets behind this one, are the table's to tell.
        let (opening, last) = (self.opening, Arrival { packet: self.opening, nanos: 0 });
        Outcome { opening, ends: self.numbers.ends[CLIENT], became, preamble, fragments: 0, last }
    }
}
