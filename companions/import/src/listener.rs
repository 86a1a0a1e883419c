//! What listens to an import: it takes each record of the capture that is made as it is written, and which packet made
//! it; what was passed over; and at the end what became of each connection.

use std::ffi::OsStr;

use captures::{placed, Arrival, InIpv4, Segment};
use programs::Failure;

use crate::outcomes::Summary;

/// So many bytes the headers of IPv4 and TCP have at most (RFC 791, 3.1; RFC 9293, 3.1).
pub(crate) const HEADERS: usize = 120;

/// Packets are numbered through all files.
pub trait Listener {
    /// A file begins, behind so many packets of others.
    fn begin_file(&mut self, path: &OsStr, packets_before: u64);

    /// Takes an address of IPv6, and the one of IPv4 that stands for it.
    fn address(&mut self, stand_in: [u8; 4], original: [u8; 16]);

    /// Takes a record of the capture that is made.
    fn record(&mut self, record: &Record<'_>);

    /// A packet that is passed over, though it may have bytes of a connection, by the reason that a map names; `cut` is
    /// one within which its file ends.
    fn passed(&mut self, packet: u64, why: &str);

    /// What there was, at the end.
    fn finish(&mut self, summary: &Summary);

    /// Takes back all that was said.
    fn begin_anew(&mut self) -> Result<(), Failure>;

    /// What went wrong first in writing.
    fn take_failure(&mut self) -> Option<Failure>;
}

/// A record of the capture that is made. Records need not be in the order of their packets.
#[derive(Clone, Copy, Debug)]
pub struct Record<'a> {
    /// Its number, as h2audit counts, from 1 on.
    pub number: u64,
    /// The arrival of the packet that completed it.
    pub arrival: Arrival,
    /// Its connection and side by h2audit's rules: the last opening of its pair among the records up to it.
    pub sender: Option<Sender>,
    /// Whether it opens that connection. h2audit numbers connections in the order of these records.
    pub is_opening: bool,
    /// Whether it was made up, for a connection that began before the capture. Its packet is that connection's first.
    pub is_made: bool,
    pub segment: Written<'a>,
}

/// A side of a connection. Connections count from 0 on in the order of openings, as [`Summary::outcomes`] has them.
#[derive(Clone, Copy, Debug, PartialEq, Eq)]
pub struct Sender {
    pub connection: usize,
    /// [`tls::CLIENT`] or [`tls::SERVER`].
    pub side: usize,
}

/// A segment in its datagram of IPv4, as it is written.
#[derive(Clone, Copy, Debug)]
pub struct Written<'a> {
    pub sequence: u32,
    /// Those of [`captures::flags`].
    pub flags: u8,
    /// The datagram, of which the second part has the whole payload.
    pub parts: [&'a [u8]; 2],
    /// Where the payload begins and ends in the datagram.
    pub start: usize,
    pub end: usize,
    /// How many bytes the datagram had.
    pub original: u32,
    /// Whether it is that of its packet as it stands.
    pub is_whole: bool,
}

impl<'a> Written<'a> {
    /// A segment as it stands.
    pub(crate) fn whole(segment: &'a Segment<'_>) -> Written<'a> {
        let original = segment.original;
        Written { parts: segment.datagram(), original, is_whole: true, ..Written::like(segment, segment.end) }
    }

    /// A packet that was found before, as it is written.
    #[inline]
    pub(crate) fn standing(found: &InIpv4<'a>) -> Written<'a> {
        let InIpv4 { datagram, original, sequence, flags, start, end, .. } = *found;
        Written { sequence, flags, parts: [&[], datagram], start, end, original, is_whole: true }
    }

    /// A segment without its payload, for whose datagram there is some room.
    #[inline]
    pub(crate) fn headers(segment: &Segment<'_>, room: &'a mut [u8; HEADERS]) -> Written<'a> {
        let [front, rest] = segment.headers();
        if !front.is_empty() {
            room[..front.len()].copy_from_slice(front);
        }
        room[front.len()..segment.start].copy_from_slice(rest);
        room[2..4].copy_from_slice(&(segment.start as u16).to_be_bytes());
        let parts = [&room[..segment.start], &[]];
        Written { parts, original: segment.start as u32, ..Written::like(segment, segment.start) }
    }

    fn like(segment: &Segment<'_>, end: usize) -> Written<'a> {
        let Segment { sequence, flags, start, .. } = *segment;
        Written { sequence, flags, parts: [&[]; 2], start, end, original: 0, is_whole: false }
    }

    pub fn payload(&self) -> &'a [u8] {
        let before = self.parts[0].len();
        &self.parts[1][self.start - before..self.end - before]
    }

    /// Where its payload stands in its side's bytes behind this initial sequence number, and what of it counts.
    pub fn placed(&self, initial: u32) -> Option<(u32, &'a [u8])> {
        placed(initial, self.sequence, self.flags, self.payload())
    }
}

/// The files in the order given, and the packets of each.
#[derive(Default)]
pub struct Files {
    /// How many packets came before each file.
    starts: Vec<u64>,
}

impl Files {
    pub fn begin(&mut self, packets_before: u64) {
        self.starts.push(packets_before);
    }

    pub fn count(&self) -> usize {
        self.starts.len()
    }

    /// File and packet of it, each from 1.
    pub fn place(&self, packet: u64) -> (usize, u64) {
        match self.starts.last() {
            Some(start) if packet > *start => (self.starts.len(), packet - start),
            _ => {
                let file = self.starts.partition_point(|start| *start < packet).max(1);
                (file, packet - self.starts.get(file - 1).copied().unwrap_or(0))
            }
        }
    }
}
