//! What waits of connections that are joined: their packets, and the plaintext of those that are opened, as segments in
//! the clear.
//!
//! A packet of a file that can be read twice waits there: what is kept says whose it is, and where its record stands.
//! All else is kept in a temporary file without a name.

use std::ffi::OsString;
use std::io::{self, ErrorKind, Write};

use captures::{pcap, Arrival, Decoder, FileView, InIpv4, Order, Packet, Segment, RAW};
use programs::{printable, temporary_failure, Failure, PrivateFile};

use crate::listener::Written;

/// Behind a byte with flags stands whose it is, unless it is that of the one before it.
const SOURCE: usize = 4;
/// Where a record stands: packet, file, place.
const STANDS: usize = 20;
/// What it is known by where it stands; what is kept itself has more behind its front.
const PRINT: usize = 4;
/// Where all of a packet is kept: its number, its time, how many bytes it had, and how many it has.
const KEPT: usize = 24;
/// So much is written at a time.
const BUFFER: usize = 1 << 17;
/// The number of a source stands above its kind.
const KINDS: u32 = 4;

const FLOW: u8 = 1;
const PLAINTEXT: u8 = 2;
/// The record stands at a place that is told, or behind the one before it.
const IN_FILE: u8 = 4;
const FOLLOWS: u8 = 8;
/// It is of the same source as the one before it.
const SAME: u8 = 16;
/// What follows the one before it in all, but that it may be of the other flow.
const GOES_ON: u8 = IN_FILE | FOLLOWS | SAME;

/// Whose packets wait.
#[derive(Clone, Copy, Debug, PartialEq, Eq, Hash)]
pub enum Source {
    /// A pair of endpoints that opened no connection, by its number.
    Pair(usize),
    /// A connection with a hole, by the number of the hole.
    Hole(usize),
    /// What goes on behind a gap, by the number of that.
    Behind(usize),
}

impl Source {
    fn number(self) -> u32 {
        let (number, kind) = match self {
            Source::Pair(number) => (number, 0),
            Source::Hole(number) => (number, 1),
            Source::Behind(number) => (number, 2),
        };
        (number as u32).wrapping_mul(KINDS) + kind
    }

    fn of(number: u32) -> Source {
        let place = (number / KINDS) as usize;
        match number % KINDS {
            0 => Source::Pair(place),
            1 => Source::Hole(place),
            _ => Source::Behind(place),
        }
    }
}

/// A file that can be read twice.
pub struct Original {
    pub path: OsString,
    pub header: pcap::Header,
}

/// Where a packet's record stands: in which of these files, and where there.
#[derive(Clone, Copy, Debug, PartialEq, Eq)]
pub struct Place {
    pub file: u32,
    pub at: u64,
}

/// What is known of a datagram beside its bytes.
#[derive(Clone, Copy, Debug)]
pub struct Known {
    pub source: Source,
    /// 0 or 1: which of both sends.
    pub flow: usize,
    pub arrival: Arrival,
    pub is_plaintext: bool,
    /// Where it can be read once more.
    pub place: Option<Place>,
}

/// A print by which a segment is known once more, as good as surely: its numbers, its time, and where its payload ends.
#[inline]
fn print_of(nanos: i64, [sequence, acknowledgement]: [u32; 2], end: usize) -> u32 {
    sequence ^ acknowledgement.rotate_left(16) ^ nanos as u32 ^ (end as u32) << 16
}

/// What waits, while it is written.
#[derive(Default)]
pub struct Kept {
    file: Option<PrivateFile>,
    /// What is written next.
    buffer: Vec<u8>,
    /// File and number of the packet behind the last one that stands in a file, and the source of the last one of all.
    next: Option<(u32, u64)>,
    source: Option<u32>,
}

impl Kept {
    /// Keeps a segment that came as a packet.
    #[inline(always)] // what is known of it need not stand together then
    pub fn keep(&mut self, known: &Known, segment: &Segment<'_>) -> io::Result<()> {
        let place = match known.place {
            Some(place) => place,
            None => return self.keep_bytes(known, segment.original, segment.datagram()),
        };
        let Arrival { packet, nanos } = known.arrival;
        let print = print_of(nanos, [segment.sequence, segment.acknowledgement], segment.end);
        let follows = self.next.replace((place.file, packet + 1)) == Some((place.file, packet));
        if follows && self.source == Some(known.source.number()) {
            let [a, b, c, d] = print.to_le_bytes();
            self.buffer.extend_from_slice(&[known.flow as u8 | GOES_ON, a, b, c, d]);
        } else {
            self.keep_elsewhere(known, follows, print, place);
        }
        self.write_much()
    }

    #[inline(never)]
    fn keep_elsewhere(&mut self, known: &Known, follows: bool, print: u32, place: Place) {
        self.keep_front(known, if follows { IN_FILE | FOLLOWS } else { IN_FILE });
        self.buffer.extend_from_slice(&print.to_le_bytes());
        if !follows {
            self.buffer.extend_from_slice(&stands_bytes(known.arrival.packet, place));
        }
    }

    fn keep_front(&mut self, known: &Known, how: u8) {
        let source = known.source.number();
        let plaintext = if known.is_plaintext { PLAINTEXT } else { 0 };
        let same = if self.source.replace(source) == Some(source) { SAME } else { 0 };
        self.buffer.push(known.flow as u8 | plaintext | how | same);
        if same == 0 {
            self.buffer.extend_from_slice(&source.to_le_bytes());
        }
    }

    /// Keeps a datagram that had so many bytes.
    pub fn keep_bytes(&mut self, known: &Known, original: u32, parts: [&[u8]; 2]) -> io::Result<()> {
        let length = (parts[0].len() + parts[1].len()) as u32;
        self.keep_front(known, 0);
        self.buffer.extend_from_slice(&known.arrival.packet.to_le_bytes());
        self.buffer.extend_from_slice(&known.arrival.nanos.to_le_bytes());
        self.buffer.extend_from_slice(&original.to_le_bytes());
        self.buffer.extend_from_slice(&length.to_le_bytes());
        parts.iter().for_each(|part| self.buffer.extend_from_slice(part));
        self.write_much()
    }

    #[inline]
    fn write_much(&mut self) -> io::Result<()> {
        match self.buffer.len() < BUFFER {
            true => Ok(()),
            false => self.write(),
        }
    }

    #[inline(never)]
    fn write(&mut self) -> io::Result<()> {
        let file = match &mut self.file {
            Some(file) => file,
            none => none.insert(PrivateFile::begin()?),
        };
        file.write_all(&self.buffer)?;
        self.buffer.clear();
        Ok(())
    }

    /// What waits, to be read, with these files; none where nothing does.
    pub fn packets(mut self, originals: Vec<Original>) -> io::Result<Option<Waiting>> {
        if self.file.is_some() {
            self.write()?;
        }
        let has_some = self.file.is_some() || !self.buffer.is_empty();
        let view = match self.file {
            Some(file) => FileView::new(file.read_from_the_beginning()?),
            None => FileView::of_bytes(self.buffer),
        };
        let (packet, at) = (0, Place { file: 0, at: 0 });
        Ok(has_some.then(|| Waiting { view, place: 0, source: 0, originals, open: None, packet, at }))
    }
}

fn stands_bytes(packet: u64, place: Place) -> [u8; STANDS] {
    let mut bytes = [0; STANDS];
    bytes[..8].copy_from_slice(&packet.to_le_bytes());
    bytes[8..12].copy_from_slice(&place.file.to_le_bytes());
    bytes[12..].copy_from_slice(&place.at.to_le_bytes());
    bytes
}

/// What waited, in the order in which it came.
pub struct Waiting {
    view: FileView,
    /// Where what is read next begins there, and the source of what was read last.
    place: u64,
    source: u32,
    originals: Vec<Original>,
    /// The file that is read, by its number.
    open: Option<(u32, pcap::Records)>,
    /// The last packet of one, and where what follows it stands.
    packet: u64,
    at: Place,
}

/// One datagram of it.
#[derive(Clone, Copy)]
pub struct Waited<'a> {
    pub known: Known,
    packet: Packet<'a>,
    /// If it stands in a file: what it is known by, and the file.
    standing: Option<(u32, &'a OsString)>,
}

impl<'a> Waited<'a> {
    /// Its segment. Packets of files are decoded by what decoded them before.
    pub fn segment(&self, decoder: &mut Decoder) -> Result<Segment<'a>, Failure> {
        let found = decoder.again(&self.packet);
        let is_same = |one: &Segment<'_>| self.is_known([one.sequence, one.acknowledgement], one.end);
        found.filter(is_same).ok_or_else(|| self.standing.map_or_else(ended, |(_, path)| changed(path)))
    }

    /// Its segment as it is written; none if it is IPv6, or is not the one that waited.
    #[inline]
    pub fn written(&self) -> Option<Written<'a>> {
        let found = InIpv4::again(&self.packet)?;
        let is_same = self.is_known([found.sequence, found.acknowledgement], found.end);
        is_same.then(|| Written::standing(&found))
    }

    /// Whether that is the segment that waited.
    #[inline]
    fn is_known(&self, numbers: [u32; 2], end: usize) -> bool {
        self.standing.map_or(true, |(print, _)| print_of(self.packet.nanos, numbers, end) == print)
    }
}

impl Waiting {
    #[allow(clippy::should_implement_trait)] // what waited borrows from this, which no Iterator's may
    #[inline]
    pub fn next(&mut self) -> Result<Option<Waited<'_>>, Failure> {
        let how = match self.view.at(self.place, 1) {
            Ok(Some(front)) => front[0],
            Ok(None) => return Ok(None),
            Err(error) => return Err(temporary_failure(&error)),
        };
        self.place += 1;
        if how & SAME == 0 {
            self.source = u32::from_le_bytes(self.take::<SOURCE>()?);
        }
        let source = (Source::of(self.source), usize::from(how & FLOW));
        if how & IN_FILE == 0 {
            return self.kept(source, how & PLAINTEXT != 0).map(Some);
        }
        let print = u32::from_le_bytes(self.take::<PRINT>()?);
        match how & FOLLOWS {
            0 => self.stands()?,
            _ => self.packet += 1,
        }
        self.standing(source, print).map(Some)
    }

    /// Gives what follows in the file, as long as it is of the same source, and known by its bytes as it is written: of
    /// each packet the flow, and when it came.
    #[inline]
    pub fn go_on(&mut self, mut give: impl FnMut(usize, Arrival, Written<'_>)) {
        let records = match &mut self.open {
            Some((_, records)) => records,
            None => return,
        };
        while let (Ok(Some(_)), Ok(Some(_))) = (self.view.at(self.place, 1 + PRINT), records.at(self.at.at)) {
            // Both are in view, with much that follows.
            let (mut entries, mut rest) = (self.view.rest(self.place), records.rest(self.at.at));
            while let (&[how, a, b, c, d, ref others @ ..], Some((packet, size))) = (entries, records.packet_in(rest)) {
                let print = u32::from_le_bytes([a, b, c, d]);
                let found = match InIpv4::again(&packet) {
                    Some(found) if how & !FLOW == GOES_ON && is_print(print, packet.nanos, &found) => found,
                    _ => return,
                };
                (entries, rest) = (others, &rest[size..]);
                self.place += (1 + PRINT) as u64;
                self.packet += 1;
                self.at.at += size as u64;
                let arrival = Arrival { packet: self.packet, nanos: packet.nanos };
                give(usize::from(how & FLOW), arrival, Written::standing(&found));
            }
        }
    }

    /// Reads where the next packet stands.
    #[inline(never)]
    fn stands(&mut self) -> Result<(), Failure> {
        let stands = self.take::<STANDS>()?;
        self.packet = eight(&stands, 0);
        self.at = Place { file: four(&stands, 8), at: eight(&stands, 12) };
        Ok(())
    }

    pub fn into_originals(self) -> Vec<Original> {
        self.originals
    }

    #[inline]
    fn take<const SIZE: usize>(&mut self) -> Result<[u8; SIZE], Failure> {
        let bytes = self.view.at(self.place, SIZE).map_err(|error| temporary_failure(&error))?;
        self.place += SIZE as u64;
        bytes.and_then(|bytes| bytes.try_into().ok()).ok_or_else(ended)
    }

    #[inline(never)]
    fn kept(&mut self, (source, flow): (Source, usize), is_plaintext: bool) -> Result<Waited<'_>, Failure> {
        let front = self.take::<KEPT>()?;
        let arrival = Arrival { packet: eight(&front, 0), nanos: eight(&front, 8) as i64 };
        let (original, length) = (four(&front, 16), four(&front, 20));
        let place = self.place;
        self.place += u64::from(length);
        let data = self.view.at(place, length as usize).map_err(|error| temporary_failure(&error))?;
        let packet = Packet { nanos: arrival.nanos, link: Some(RAW), data: data.ok_or_else(ended)?, original };
        Ok(Waited { known: Known { source, flow, arrival, is_plaintext, place: None }, packet, standing: None })
    }

    fn standing(&mut self, (source, flow): (Source, usize), print: u32) -> Result<Waited<'_>, Failure> {
        let place = self.at;
        if self.open.as_ref().map_or(true, |(open, _)| *open != place.file) {
            self.open(place.file)?;
        }
        let path = &self.originals[place.file as usize].path;
        let (packet, end) = match self.open.as_mut().map_or(Ok(None), |(_, records)| records.at(place.at)) {
            Ok(Some(found)) => found,
            Ok(None) => return Err(changed(path)),
            Err(error) => return Err(Failure::of_file(path, &error)),
        };
        self.at.at = end;
        let arrival = Arrival { packet: self.packet, nanos: packet.nanos };
        let known = Known { source, flow, arrival, is_plaintext: false, place: Some(place) };
        Ok(Waited { known, packet, standing: Some((print, path)) })
    }

    #[inline(never)]
    fn open(&mut self, file: u32) -> Result<(), Failure> {
        let Original { path, header } = &self.originals[file as usize];
        let records = pcap::Records::open(path, *header).map_err(|error| Failure::of_file(path, &error))?;
        self.open = Some((file, records));
        Ok(())
    }
}

/// Whether a segment is the one that waited, and is known by this.
#[inline]
fn is_print(print: u32, nanos: i64, found: &InIpv4<'_>) -> bool {
    print_of(nanos, [found.sequence, found.acknowledgement], found.end) == print
}

#[inline]
fn four(bytes: &[u8], at: usize) -> u32 {
    Order::Little.u32(bytes, at)
}

fn eight(bytes: &[u8], at: usize) -> u64 {
    u64::from(four(bytes, at)) | u64::from(four(bytes, at + 4)) << 32
}

/// The temporary file ends within something.
fn ended() -> Failure {
    temporary_failure(&ErrorKind::UnexpectedEof.into())
}

fn changed(path: &OsString) -> Failure {
    Failure::Io(format!("{}: changed while it was read", printable(path)))
}

#[cfg(test)]
mod tests;
