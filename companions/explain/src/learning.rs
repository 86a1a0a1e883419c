//! The first walk, while the import writes: of each connection its frames, which the second walk reads, its quickest
//! reactions, its gaps, and where its times go back.

use std::ffi::OsStr;
use std::io;
use std::os::unix::ffi::OsStrExt;

use captures::{flags, placed, Arrival, Flow};
use import::{help_for, Addresses, Listener, Sender, Summary};
use programs::{temporary_failure, Failure};

use crate::answer::{At, Files, Nanos};
use crate::cutter::{Cut, Cutter, Head};
use crate::frame_log::{wants, Came, FrameLog, Payload};
use crate::names::text_of;
use crate::reactions::{Quickest, Reactions};
use crate::spoken::Spoken;

/// What is known of a connection once the capture is made.
#[derive(Debug)]
pub struct Known {
    /// The record that opened it, with its packet and time; and its last one.
    pub record: u64,
    pub opened: At,
    pub last: At,
    /// The first record whose time lies before that of the connection's record before it, with its packet.
    pub back: Option<(u64, u64)>,
    /// By how much they go back, at most.
    pub late: u64,
    /// What helps there.
    pub help: &'static str,
    /// The initial sequence numbers of both sides.
    pub initials: [Option<u32>; 2],
    /// Whether it is HTTP/2 that can be read.
    pub is_http2: bool,
    /// The record that came first past a side's missing bytes, and the one that brought its last byte in order.
    pub gaps: [Option<Arrival>; 2],
    pub arrivals: [u64; 2],
    pub frames: u32,
    /// How many frames were made up, and how many bytes of each side, of one that began before the capture.
    pub made: u32,
    pub made_bytes: [u64; 2],
    /// For each side, the stream of a frame whose rest did not come, and when its packets came.
    pub cuts: [Option<(u32, Box<[Nanos]>)>; 2],
    /// For each side, what came of such a frame, and when.
    pub partial: [Option<Box<Partial>>; 2],
    /// The quickest reactions of each side to what the other one sends.
    pub quickest: [Quickest; 2],
    /// How many SETTINGS of each side were acknowledged, and the frames of the first that were not.
    pub acknowledged: [u32; 2],
    pub unanswered: Vec<u32>,
    /// What each side says first, and the packet of it.
    pub spoken: [(Spoken, u64); 2],
}

/// A frame whose rest did not come.
#[derive(Debug)]
pub struct Partial {
    pub head: Head,
    pub payload: Box<[u8]>,
    pub times: Box<[Nanos]>,
    pub arrived: Box<[u32]>,
}

impl Partial {
    fn of(cut: &Cut<'_>) -> Partial {
        let Cut { head, payload, times, arrived } = *cut;
        let payload = &payload[..payload.len().min(1)];
        Partial { head, payload: payload.into(), times: times.into(), arrived: arrived.into() }
    }

    pub fn cut(&self) -> Cut<'_> {
        Cut { head: self.head, payload: &self.payload, times: &self.times, arrived: &self.arrived }
    }
}

/// What is learned of a connection.
pub struct Learned {
    record: u64,
    opened: At,
    last: At,
    back: Option<(u64, u64)>,
    /// By how much its times go back, at most.
    late: u64,
    initials: [Option<u32>; 2],
    /// Bytes of the server came before its initial sequence number was known: all that came from then on waits.
    is_early: bool,
    sides: [Side; 2],
    frames: u32,
    /// Whether what comes was made up; how many frames were, and how many bytes of each side.
    is_made: bool,
    made: u32,
    made_bytes: [u64; 2],
    reactions: Reactions,
}

/// What is learned of one side.
struct Side {
    flow: Flow,
    cutter: Cutter,
    arrival: u64,
    spoken: (Spoken, u64),
}

impl Learned {
    pub fn new(record: u64, opened: At, sequence: u32) -> Learned {
        let side = |is_client| Side {
            flow: Flow::default(),
            cutter: Cutter::new(is_client),
            arrival: 0,
            spoken: Default::default(),
        };
        Learned {
            record,
            opened,
            last: opened,
            back: None,
            late: 0,
            initials: [Some(sequence), None],
            is_early: false,
            sides: [side(true), side(false)],
            frames: 0,
            is_made: false,
            made: 0,
            made_bytes: [0; 2],
            reactions: Reactions::default(),
        }
    }

    /// Whether payloads of it wait in the log.
    pub fn is_early(&self) -> bool {
        self.is_early
    }

    /// A record of a side came.
    pub fn met(&mut self, number: u64, at: At, side: usize, (sequence, bits): (u32, u8)) {
        if at.time < self.last.time {
            self.back.get_or_insert((number, at.packet));
            self.late = self.late.max(self.last.time.abs_diff(at.time));
        }
        self.last = at;
        if side == import::SERVER && bits & flags::SYN != 0 && bits & flags::ACK != 0 {
            self.initials[side].get_or_insert(sequence);
        }
    }

    /// Takes the payload of a record; the frames that it completes go into the log.
    pub fn take(&mut self, came: &Came, payload: &Payload<'_>, log: &mut FrameLog) -> io::Result<()> {
        if payload.octets.is_empty() || self.sides[import::CLIENT].cutter.is_other() {
            return Ok(());
        }
        self.is_early |= self.initials[came.side].is_none();
        if self.is_early {
            return log.put_aside(came, payload);
        }
        self.place(came, payload, log)
    }

    /// Takes one that waited, as far as it can be placed now.
    pub fn place(&mut self, came: &Came, payload: &Payload<'_>, log: &mut FrameLog) -> io::Result<()> {
        let Payload { sequence, flags, octets } = *payload;
        match self.initials[came.side].and_then(|initial| placed(initial, sequence, flags, octets)) {
            Some((offset, data)) if !self.sides[import::CLIENT].cutter.is_other() => {
                self.bytes(came, offset, data, log)
            }
            _ => Ok(()),
        }
    }

    fn bytes(&mut self, came: &Came, offset: u32, data: &[u8], log: &mut FrameLog) -> io::Result<()> {
        let Learned { sides, frames, made, reactions, is_made, .. } = self;
        let Came { record, at, side, .. } = *came;
        let begun = sides[1 - side].cutter.cut_frame().map(|cut| cut.0);
        let one = &mut sides[side];
        let data = one.flow.add(offset, data, Arrival { packet: record, nanos: at.time });
        if data.is_empty() {
            return Ok(());
        }
        one.arrival = record;
        if one.spoken.0 == Spoken::Nothing {
            one.spoken = (Spoken::by(&data), at.packet);
        }
        if *is_made {
            self.made_bytes[side] += data.len() as u64;
        }
        one.cutter.take(&data, at.time, wants, |cut| {
            if *is_made {
                *made += 1;
            } else {
                *frames += 1;
                reactions.take(side, *frames, cut);
            }
            log.push(cut);
        });
        log.end(came, begun)
    }

    /// What is known at the end of the capture.
    pub fn known(self) -> Known {
        let client = &self.sides[import::CLIENT].cutter;
        Known {
            record: self.record,
            opened: self.opened,
            last: self.last,
            back: self.back,
            late: self.late,
            help: help_for(self.late),
            initials: self.initials,
            is_http2: self.initials[import::SERVER].is_some() && client.has_preface() && !client.is_other(),
            gaps: [0, 1].map(|side| self.sides[side].flow.behind_hole()),
            arrivals: [0, 1].map(|side| self.sides[side].arrival),
            frames: self.frames,
            made: self.made,
            made_bytes: self.made_bytes,
            cuts: [0, 1].map(|side| {
                let cut = self.sides[side].cutter.cut_frame();
                cut.map(|(stream, times)| (stream, times.into()))
            }),
            partial: [0, 1].map(|side| self.sides[side].cutter.unfinished().map(|cut| Box::new(Partial::of(&cut)))),
            quickest: self.reactions.quickest,
            acknowledged: self.reactions.acknowledged,
            unanswered: self.reactions.unanswered(),
            spoken: [0, 1].map(|side| self.sides[side].spoken),
        }
    }
}

/// Listens to an import.
pub struct Learning {
    /// By the import's numbers.
    pub connections: Vec<Option<Box<Learned>>>,
    /// The import's numbers in the order of the records that open connections, which is h2audit's.
    pub order: Vec<usize>,
    pub files: Files,
    pub addresses: Addresses,
    pub log: FrameLog,
    /// The files that end within a packet, each with the number of that one in it.
    pub cuts: Vec<(usize, u64)>,
    failure: Option<Failure>,
}

impl Learning {
    pub fn new() -> Result<Learning, Failure> {
        Ok(Learning {
            connections: Vec::new(),
            order: Vec::new(),
            files: Files::default(),
            addresses: Addresses::default(),
            log: FrameLog::new()?,
            cuts: Vec::new(),
            failure: None,
        })
    }

    fn opened(&mut self, connection: usize, record: &import::Record<'_>, at: At) {
        if self.connections.len() <= connection {
            self.connections.resize_with(connection + 1, || None);
        }
        self.connections[connection] = Some(Box::new(Learned::new(record.number, at, record.segment.sequence)));
        self.order.push(connection);
    }
}

impl Listener for Learning {
    fn begin_file(&mut self, path: &OsStr, packets_before: u64) {
        self.files.names.push(text_of(path.as_bytes()).into_owned());
        self.files.starts.push(packets_before);
    }

    fn address(&mut self, stand_in: [u8; 4], original: [u8; 16]) {
        self.addresses.add(stand_in, original);
    }

    fn record(&mut self, record: &import::Record<'_>) {
        let at = At { packet: record.arrival.packet, time: record.arrival.nanos, frame: 0 };
        let Sender { connection, side } = match record.sender {
            Some(sender) => sender,
            None => return,
        };
        if record.is_opening {
            self.opened(connection, record, at);
        }
        if let Some(Some(learned)) = self.connections.get_mut(connection) {
            let import::Written { sequence, flags, .. } = record.segment;
            learned.met(record.number, at, side, (sequence, flags));
            learned.is_made = record.is_made;
            let came = Came { record: record.number, at, connection, side };
            let payload = Payload { sequence, flags, octets: record.segment.payload() };
            if let (Err(error), None) = (learned.take(&came, &payload, &mut self.log), &self.failure) {
                self.failure = Some(temporary_failure(&error));
            }
        }
    }

    fn passed(&mut self, packet: u64, why: &str) {
        if why == "cut" {
            let before = self.files.starts.last().copied().unwrap_or(0);
            self.cuts.push((self.files.names.len(), packet - before));
        }
    }

    fn finish(&mut self, _summary: &Summary) {}

    fn begin_anew(&mut self) -> Result<(), Failure> {
        self.connections.clear();
        self.order.clear();
        self.files = Files::default();
        self.addresses = Addresses::default();
        self.cuts.clear();
        self.log.begin_anew().map_err(|error| temporary_failure(&error))
    }

    fn take_failure(&mut self) -> Option<Failure> {
        self.failure.take()
    }
}
