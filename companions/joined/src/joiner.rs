//! Joins one connection.

use captures::{flags, swapped, Arrival, Ends};
use cutter::Nanos;

use crate::assumed::{credits_of, Assumed};
use crate::beginning::{beginning_of, frames_of, Stand};
use crate::course::JoinedCourse;
use crate::doubles::Doubles;
use crate::first_bytes::{are_first, FRONT};
use crate::handshake::{records_of, Made, Numbers};
use crate::incoming::{Both, Piece};
use crate::sides::SideEvidence;
use crate::unjoined::Unjoined;

pub const CLIENT: usize = 0;
pub const SERVER: usize = 1;
/// One packet in so many may stand twice.
const FEW: u64 = 10;

/// How a connection was joined.
#[derive(Clone, Debug, PartialEq, Eq)]
pub enum How {
    /// The SYN was lost, and its answer is there: nothing is inferred.
    Syn,
    /// The answer to the SYN was lost, and the SYN, what acknowledges the answer, and the server's first bytes are
    /// there: nothing is inferred.
    Answer,
    /// The handshake was lost, and what both sides sent first is there: nothing is inferred.
    Handshake,
    Inferred(Box<Inferred>),
}

/// What is inferred.
#[derive(Clone, Debug, PartialEq, Eq)]
pub struct Inferred {
    /// How the sides are told apart.
    pub sides: SideEvidence,
    /// The first frame of each side, where it has one.
    pub borders: [Option<Border>; 2],
    /// How many frames each side has in the beginning.
    pub made: [u32; 2],
    pub assumed: Vec<Assumed>,
    /// SETTINGS from before that each side acknowledges; and the longest frame of each.
    pub acknowledged: [u32; 2],
    pub longest: [u32; 2],
    /// When each side first acknowledged an initial window that was seen, so that streams that open later have it.
    pub changed: [Option<Nanos>; 2],
    /// Where the last byte came of the frame of each side that the cut divides: what goes on since before the capture
    /// may have begun with that.
    pub divided: [Option<Arrival>; 2],
    /// The streams that were open, in rising order.
    pub open: Vec<u32>,
    /// Whether nothing may be claimed: times go back, or packets stand twice.
    pub is_doubtful: bool,
}

/// Where a side's first frame begins, behind so many of its bytes in the capture, by so many bits of evidence.
#[derive(Clone, Copy, Debug, PartialEq, Eq)]
pub struct Border {
    pub at: u32,
    pub bits: u32,
}

/// A connection, and what is made up for it.
#[derive(Clone, Debug)]
pub struct Joined {
    /// The first packet of it.
    pub first: Arrival,
    /// The endpoints, the client's first.
    pub ends: Ends,
    pub how: How,
    numbers: Numbers,
    /// How it stood, where that is inferred.
    stand: Option<Box<Stand>>,
}

impl Joined {
    /// The records that are made up. They are large, and so are not kept.
    pub fn records(&self) -> Vec<Made> {
        match (&self.stand, &self.how) {
            (Some(stand), _) => records_of(&beginning_of(stand), &self.numbers),
            (None, how) => self.numbers.handshake(*how != How::Syn),
        }
    }

    /// The records with another number of the SYN, where something is inferred: a SYN that repeats the number of the
    /// one before it would open no connection.
    pub fn other_records(&mut self) -> Vec<Made> {
        if let (Some(stand), How::Inferred(inferred)) = (&mut self.stand, &mut self.how) {
            stand.pings += 1;
            inferred.made = frames_of(stand);
        }
        self.records()
    }
}

/// Joins the connection of two endpoints, of whose flows the first is the one that was seen first.
pub struct Joiner {
    first: Arrival,
    ends: Ends,
    both: Both,
    course: JoinedCourse,
    fronts: [Vec<u8>; 2],
    /// By whom a SYN was answered before any payload, with the number that it acknowledges.
    answered: Option<(usize, u32)>,
    has_payload: bool,
    /// Whether nothing has to be inferred.
    is_exact: bool,
    /// Whether segments hold records of TLS, so that frames come as plaintext alone.
    is_encrypted: bool,
    /// What each flow acknowledged last.
    acknowledged: [Option<u32>; 2],
    last: i64,
    goes_back: bool,
    doubles: [Doubles; 2],
    /// Whether it goes on behind a gap, so that no first bytes are looked for; and whose flow is known to be the
    /// client's.
    is_behind: bool,
    client: Option<usize>,
}

impl Joiner {
    /// Joins a connection whose first segment is this one.
    pub fn new(first: Arrival, ends: Ends) -> Joiner {
        Joiner {
            first,
            ends,
            both: Both::default(),
            course: JoinedCourse::new(first.nanos),
            fronts: Default::default(),
            answered: None,
            has_payload: false,
            is_exact: false,
            is_encrypted: false,
            acknowledged: [None; 2],
            last: first.nanos,
            goes_back: false,
            doubles: Default::default(),
            is_behind: false,
            client: None,
        }
    }

    /// Joins what follows a gap of either flow, from these numbers of both on. The client's flow may be known already.
    pub fn behind(first: Arrival, ends: Ends, starts: [u32; 2], client: Option<usize>) -> Joiner {
        let mut joiner = Joiner { is_behind: true, client, ..Joiner::new(first, ends) };
        for (flow, start) in starts.into_iter().enumerate() {
            joiner.both.flows[flow].initial = Some(start.wrapping_sub(1));
        }
        joiner.tell_client();
        joiner
    }

    fn tell_client(&mut self) {
        self.client.iter().for_each(|client| self.course.sides.before(*client));
    }

    /// How many bytes wait: for a border, or behind a hole.
    #[inline]
    pub fn waiting(&self) -> usize {
        self.both.flows.iter().map(|one| one.waiting()).sum()
    }

    /// Takes a segment of a flow: 0 is that of the first segment.
    pub fn take(&mut self, flow: usize, piece: &Piece<'_>) {
        self.note_time(piece.arrival);
        if piece.flags & flags::RST != 0 {
            return;
        }
        if !piece.payload.is_empty() {
            self.doubles[flow].add(piece);
        }
        if !self.is_encrypted {
            self.read(flow, piece);
        }
    }

    /// Takes a segment of frames in the clear, which are read as they come, if it is the next one and none waits.
    /// Answers whether it took it: then no more waits than before, and it is not over.
    pub fn goes_on(&mut self, flow: usize, piece: &Piece<'_>) -> bool {
        let has_front = self.is_behind || piece.payload.is_empty() || self.fronts[flow].len() == FRONT;
        let is_read = has_front && !self.is_encrypted && !self.is_exact;
        let goes_on =
            is_read && piece.flags & (flags::SYN | flags::RST) == 0 && self.both.goes_on(flow, piece, &mut self.course);
        if goes_on {
            self.note_time(piece.arrival);
            self.acknowledged[flow] = piece.acknowledgement.or(self.acknowledged[flow]);
            if !piece.payload.is_empty() {
                self.doubles[flow].add_first(piece);
            }
        }
        goes_on
    }

    #[inline]
    fn note_time(&mut self, arrival: Arrival) {
        self.goes_back |= arrival.nanos < self.last;
        self.last = arrival.nanos;
    }

    /// What segments hold is encrypted: from here on they tell of TCP alone, and frames come as plaintext.
    pub fn encrypted(&mut self) {
        let (first, ends) = (self.first, self.ends);
        let Joiner { goes_back, doubles, last, is_behind, client, .. } = *self;
        let known = Joiner { goes_back, doubles, last, is_behind, client, ..Joiner::new(first, ends) };
        *self = Joiner { is_encrypted: true, ..known };
        self.tell_client();
    }

    /// Takes plaintext of a flow, with numbers that count it alone. The secret that opened it tells whose flow is the
    /// client's.
    pub fn opened(&mut self, client: usize, flow: usize, piece: &Piece<'_>) {
        self.course.sides.secret(client);
        self.read(flow, piece);
    }

    fn read(&mut self, flow: usize, piece: &Piece<'_>) {
        if let Some(number) = piece.acknowledgement {
            self.acknowledged[flow] = Some(number);
            self.both.flows[1 - flow].acknowledged(number);
        }
        if self.is_behind {
            return self.both.take(flow, piece, &mut self.course);
        }
        let is_answer = piece.flags & (flags::SYN | flags::ACK) == flags::SYN | flags::ACK;
        if let (true, false, Some(number)) = (is_answer, self.has_payload, piece.acknowledgement) {
            self.answered = Some((flow, number));
            self.is_exact = true;
        }
        if !piece.payload.is_empty() {
            self.has_payload = true;
            self.keep_front(flow, piece);
        }
        if self.is_exact {
            self.both.begin(flow, piece);
        } else {
            self.both.take(flow, piece, &mut self.course);
        }
    }

    /// Whether nothing has to be inferred, since both begin with their first bytes, or by a SYN ACK.
    pub fn is_exact(&self) -> bool {
        self.is_exact
    }

    /// Whether frames were found.
    pub fn has_border(&self) -> bool {
        self.both.flows.iter().any(|one| one.border().is_some())
    }

    /// Why it cannot be joined, whatever follows.
    #[inline]
    pub fn over(&self) -> Option<Unjoined> {
        match () {
            () if self.is_exact => None,
            () if self.both.is_tls() => Some(Unjoined::Tls),
            () => self.both.has_no_frames().then_some(Unjoined::NoFrames),
        }
    }

    fn keep_front(&mut self, flow: usize, piece: &Piece<'_>) {
        let front = &mut self.fronts[flow];
        if front.len() < FRONT && self.both.flows[flow].length() as usize == front.len() {
            let most = piece.payload.len().min(FRONT - front.len());
            front.extend_from_slice(&piece.payload[..most]);
            self.is_exact |= self.client_from_the_beginning().is_some();
        }
    }

    /// The flow of a client whose first bytes are there, if they are, and so are the server's.
    fn client_from_the_beginning(&self) -> Option<usize> {
        (0..2).find(|client| are_first(&self.fronts[*client], &self.fronts[1 - *client]))
    }

    /// What the connection's segments tell, all of which came.
    pub fn finish(mut self) -> Result<Joined, Unjoined> {
        if let Some((server, number)) = self.answered {
            let numbers = Numbers { ends: self.ends_of(1 - server), next: [number, 0] };
            return Ok(self.joined(How::Syn, numbers, None));
        }
        if let Some(client) = self.client_from_the_beginning() {
            let numbers = Numbers { ends: self.ends_of(client), next: self.numbers(client, [0; 2]) };
            return Ok(self.joined(How::Handshake, numbers, None));
        }
        if self.both.is_tls() {
            return Err(Unjoined::Tls);
        }
        self.both.finish(&mut self.course);
        match () {
            () if self.course.frames == 0 => Err(if self.both.is_tls() { Unjoined::Tls } else { Unjoined::NoFrames }),
            () if self.course.streams.has_too_many() => Err(Unjoined::ManyStreams),
            () => Ok(self.inferred()),
        }
    }

    fn inferred(mut self) -> Joined {
        let port = |at: usize| u16::from_be_bytes([self.ends[at], self.ends[at + 1]]);
        let (client, told) = self.course.sides.client([port(8), port(10)]);
        let flows = [client, 1 - client];
        let has_blocks = flows.map(|flow| self.course.has_blocks[flow]);
        let segments: u64 = self.doubles.iter().map(|one| one.segments).sum();
        let doubled: u64 = self.doubles.iter().map(|one| one.doubled).sum();
        let is_late = self.both.flows.iter().any(|one| one.is_late());
        let is_doubtful = self.goes_back || is_late || doubled * FEW > segments;
        let borders = flows.map(|flow| self.both.flows[flow].border());
        // Without a border all bytes are before it.
        let places =
            [0, 1].map(|side: usize| borders[side].map_or_else(|| self.both.flows[flows[side]].length(), |(at, _)| at));
        let credits = [CLIENT, SERVER].map(|side| credits_of(&mut self.course, flows[side], side, !is_doubtful));
        let stand = Stand {
            credits,
            has_blocks,
            first_opened: self.course.streams.first_opened(),
            longest: flows.map(|flow| self.course.longest[flow]),
            acknowledged_later: flows.map(|flow| self.course.acknowledged_before[flow]),
            pings: 0,
        };
        let numbers = Numbers { ends: self.ends_of(client), next: self.numbers(client, places) };
        let mut stand = stand;
        let assumed = stand.credits.iter_mut().flat_map(|credits| std::mem::take(&mut credits.assumed)).collect();
        let inferred = Inferred {
            sides: told,
            borders: borders.map(|border| border.map(|(at, bits)| Border { at, bits })),
            made: frames_of(&stand),
            acknowledged: stand.acknowledged_later,
            longest: stand.longest,
            changed: flows.map(|flow| self.course.senders[flow].changed),
            divided: flows.map(|flow| self.course.divided[flow]),
            open: self.course.streams.open().map(|(id, _)| id).collect(),
            assumed,
            is_doubtful,
        };
        self.joined(How::Inferred(Box::new(inferred)), numbers, Some(Box::new(stand)))
    }

    /// The numbers of both sides behind so many of the bytes that were captured.
    fn numbers(&self, client: usize, places: [u32; 2]) -> [u32; 2] {
        [client, 1 - client].map(|flow| {
            let place = places[usize::from(flow != client)];
            match self.both.flows[flow].initial {
                Some(initial) => initial.wrapping_add(1).wrapping_add(place),
                None => self.acknowledged[1 - flow].unwrap_or(0),
            }
        })
    }

    fn ends_of(&self, flow: usize) -> Ends {
        if flow == 0 {
            self.ends
        } else {
            swapped(&self.ends)
        }
    }

    fn joined(&self, how: How, numbers: Numbers, stand: Option<Box<Stand>>) -> Joined {
        Joined { first: self.first, ends: numbers.ends, how, numbers, stand }
    }
}
