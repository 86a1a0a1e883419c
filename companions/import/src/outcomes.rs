//! What became of the connections of a capture, and of its packets, as the map says it.

use std::fmt;

use captures::{Arrival, Ends};
use joined::{How, Unjoined};
use reports::Capture;
use tls::Reason;

use crate::addresses::escaped;
use crate::preamble::Preamble;
use crate::reorder::MOST_LATE;

/// So many packets are named whose times go back.
const MOST_KEPT: usize = 16;

/// Why a flow of plaintext ends.
#[derive(Clone, Copy, Debug, PartialEq, Eq)]
pub enum End {
    Whole,
    Cut,
    Lost,
    TooLarge,
    Stopped(Reason),
}

impl fmt::Display for End {
    fn fmt(&self, out: &mut fmt::Formatter<'_>) -> fmt::Result {
        match self {
            End::Whole => out.write_str("whole"),
            End::Cut => out.write_str("cut"),
            End::Lost => out.write_str("lost"),
            End::TooLarge => out.write_str("too-large"),
            End::Stopped(why) => why.fmt(out),
        }
    }
}

/// How far one side's plaintext goes, and why it ends there.
#[derive(Clone, Copy, Debug)]
pub struct SideRead {
    pub bytes: u32,
    pub has_gap: bool,
    /// Encrypted bytes of a record that is cut.
    pub tail: usize,
    pub end: End,
}

/// A TLS connection whose plaintext was written.
#[derive(Clone, Debug)]
pub struct Read {
    pub version: &'static str,
    pub suite: &'static str,
    pub protocol: Option<Vec<u8>>,
    pub records: u64,
    pub early_records: u64,
    pub rejected_records: u64,
    /// Where the hellos were not seen: the bytes of client and server before the first record that is opened.
    pub skipped: Option<[usize; 2]>,
    pub client: SideRead,
    pub server: SideRead,
}

#[derive(Clone, Debug)]
pub enum Became {
    /// It went through as it stands.
    Clear,
    /// Nothing of it could be read.
    Refused(Reason),
    Read(Box<Read>),
}

impl Became {
    /// The bytes of a TLS record of a side that the capture cuts, which h2audit does not see.
    pub fn cut_bytes(&self, side: usize) -> u64 {
        match self {
            Became::Read(read) => {
                let side = if side == crate::CLIENT { &read.client } else { &read.server };
                if side.has_gap {
                    0
                } else {
                    side.tail as u64
                }
            }
            Became::Clear | Became::Refused(_) => 0,
        }
    }

    /// Why a side's plaintext ends, where that is no loss of bytes, and no end of the capture.
    pub fn special_end(&self, side: usize) -> Option<String> {
        let read = match self {
            Became::Read(read) => read,
            Became::Clear | Became::Refused(_) => return None,
        };
        match if side == crate::CLIENT { read.client.end } else { read.server.end } {
            End::Whole | End::Cut | End::Lost => None,
            end @ (End::TooLarge | End::Stopped(_)) => Some(end.to_string()),
        }
    }

    /// As the map says it (docs/MAP.md).
    pub fn words(&self) -> String {
        match self {
            Became::Clear => "clear".to_string(),
            Became::Refused(why) => format!("refused {why}"),
            Became::Read(read) => {
                let without = if read.skipped.is_some() { "unknown" } else { "none" };
                let protocol = read.protocol.as_ref().map_or(without.to_string(), |protocol| escaped(protocol));
                format!("tls {} {} alpn {protocol} records {}", read.version, read.suite, read.records)
            }
        }
    }
}

/// What became of a connection.
#[derive(Clone, Debug)]
pub struct Outcome {
    /// The packet of its opening, numbered through all files.
    pub opening: u64,
    /// The ends of what its client sends.
    pub ends: Ends,
    pub became: Became,
    /// What stood before its bytes, and was left out.
    pub preamble: Option<Preamble>,
    /// IP fragments that were passed over, and belong to it.
    pub fragments: u64,
    /// Its last packet, of either side.
    pub last: Arrival,
}

/// A pair of endpoints with segments before any opening of theirs.
#[derive(Clone, Copy, Debug)]
pub struct Unopened {
    /// The first of these segments.
    pub first: Arrival,
    pub ends: Ends,
    pub segments: u64,
    /// Whether one of both sends all of these, though they show that the other one sent something: they have a SYN ACK,
    /// or acknowledge more and more.
    pub is_one_way: bool,
    pub fate: Fate,
}

/// Whether such a pair's connection was joined.
#[derive(Clone, Copy, Debug, PartialEq, Eq)]
pub enum Fate {
    NotAsked,
    /// It is joined as the connection of this number.
    Joined(usize),
    Unjoined(NotJoined),
}

/// Why it was not: for lack of frames, or of what opens its records.
#[derive(Clone, Copy, Debug, PartialEq, Eq)]
pub enum NotJoined {
    Frames(Unjoined),
    Tls(Reason),
}

impl fmt::Display for NotJoined {
    fn fmt(&self, out: &mut fmt::Formatter<'_>) -> fmt::Result {
        match self {
            NotJoined::Frames(why) => out.write_str(why.word()),
            NotJoined::Tls(why) => why.fmt(out),
        }
    }
}

/// A connection that was joined, and so has records that were made up.
#[derive(Clone, Debug)]
pub struct JoinedConnection {
    /// Its number, as [`Summary::outcomes`] counts.
    pub connection: usize,
    pub how: How,
    /// How many records were made up, and how many bytes of each side.
    pub records: u64,
    pub bytes: [u64; 2],
    pub behind: Behind,
    /// Whether packets of one side alone were captured: without the other one's grants no window can be told.
    pub is_one_way: bool,
}

/// Whether a connection was joined behind a gap.
#[derive(Clone, Copy, Debug, PartialEq, Eq)]
pub enum Behind {
    /// It was not.
    No,
    /// It goes on with a connection of this number.
    Gap(usize),
    /// What was captured of it before a gap could not be joined.
    First,
}

/// Where bytes of a connection are missing, and what became of what follows.
#[derive(Clone, Copy, Debug)]
pub struct GapSaid {
    pub connection: usize,
    /// The side whose bytes are missing, and the first packet behind them.
    pub side: usize,
    pub first: Arrival,
    pub fate: Fate,
}

/// A packet whose time lies so far before that of the packet before it.
#[derive(Clone, Copy, Debug)]
pub struct Older {
    pub arrival: Arrival,
    pub nanos: u64,
}

/// All such packets.
#[derive(Clone, Debug, Default)]
pub struct Back {
    /// The first 16 of them.
    pub first: Vec<Older>,
    pub packets: u64,
    /// The longest way back.
    pub nanos: u64,
}

impl Back {
    pub(crate) fn add(&mut self, one: Older) {
        if self.first.len() < MOST_KEPT {
            self.first.push(one);
        }
        self.packets += 1;
        self.nanos = self.nanos.max(one.nanos);
    }

    /// The first of them.
    pub fn packet(&self) -> u64 {
        self.first.first().map_or(0, |one| one.arrival.packet)
    }
}

/// What was put in order of time (docs/MAP.md, 3).
#[derive(Clone, Copy, Debug, Default, PartialEq, Eq)]
pub struct Reordered {
    /// Packets that went before others.
    pub packets: u64,
    /// The latest of them came so long after a newer one.
    pub nanos: u64,
    /// Packets that are too late for that, and were left where they are.
    pub left: u64,
}

/// What helps where times go back so far at most.
pub fn help_for(nanos: u64) -> &'static str {
    match nanos <= MOST_LATE.unsigned_abs() {
        true => "--reorder",
        false => "reordercap",
    }
}

/// So many packets.
fn packets(count: u64) -> String {
    format!("{count} packet{}", if count == 1 { "" } else { "s" })
}

/// What is said of packets whose times lie before that of the packet before them: the first of these, and the longest
/// way back; and how many packets were left where they are, where packets were to be put in order.
pub fn times_go_back(packet: u64, nanos: u64, left: Option<u64>) -> String {
    match left {
        Some(left) => {
            format!("times go back at packet {packet}: {} too late for --reorder: reordercap", packets(left))
        }
        None => format!("times go back at packet {packet}: are the files in order? {}", help_for(nanos)),
    }
}

/// All that is known at the end.
#[derive(Debug, Default)]
pub struct Summary {
    pub counts: Capture,
    /// How many packets were dropped while the files were captured, as they say.
    pub dropped: u64,
    /// Packets are as they are written, after those that were put in order.
    pub back: Option<Back>,
    /// Where packets were to be put in order.
    pub reordered: Option<Reordered>,
    /// What was passed over, the most frequent first.
    pub others: Vec<crate::others::Other>,
    /// In the order of first segments.
    pub unopened: Vec<Unopened>,
    /// In the order of openings. Those that were joined come last.
    pub outcomes: Vec<Outcome>,
    /// By the numbers of connections.
    pub joined: Vec<JoinedConnection>,
    /// By the numbers of connections, and the packets behind the gaps.
    pub gaps: Vec<GapSaid>,
}

impl Summary {
    /// What is to be said of times that go back.
    pub fn times_go_back(&self) -> Option<String> {
        let back = self.back.as_ref()?;
        Some(times_go_back(back.packet(), back.nanos, self.reordered.map(|reordered| reordered.left)))
    }

    /// How many connections were not refused.
    pub fn read(&self) -> usize {
        self.outcomes.iter().filter(|outcome| !matches!(outcome.became, Became::Refused(_))).count()
    }
}
