//! What the first walk found, for the second one: the frames that each record completed, with the bytes of their
//! payloads that are wanted, in a file without a name. It is read in less time than the capture that is made.

mod places;

use std::fs::File;
use std::io::{self, ErrorKind, Seek, SeekFrom, Write};
use std::os::unix::fs::FileExt;

use programs::{temporary_failure, Failure, Progress, BUFFER};

use crate::answer::{At, Nanos};
use crate::cutter::{flag, kind, Cut, Head, HEADER};
use crate::frame_log::places::{four_at, number_at, taken_from_end, Place};

/// How many bytes of a field block are wanted: enough to see that it is too long.
const MOST_FIELDS: usize = hpack::LONGEST_BLOCK + 512;
const MOST_GOAWAY: usize = 8 + 1024;
const PING: usize = 8;

/// An entry begins with numbers of so many bytes in all: the length of what stands behind them, with two flags; who
/// sent it; and by how much its record, its packet and its time are above those of the entry before.
const FRONT: usize = 16;
/// Whether these are too far above them: then they stand at the end.
const IS_FAR: u32 = 1 << 31;
const FAR: usize = 24;
/// Whether there are numbers of the frame that the other side had begun, and of times of the first frame, before that.
const IS_MORE: u32 = 1 << 30;
const MORE: usize = 8;
const TIME: usize = 8;
const BYTES: usize = 4;
/// Stands in the place of a stream in an entry whose segment could not be placed.
const UNPLACED: u32 = u32::MAX;

/// How much of a payload both walks want.
#[inline]
pub fn wants(head: &Head) -> usize {
    match head.kind {
        kind::DATA => usize::from(head.has(flag::PADDED)),
        kind::HEADERS | kind::PUSH_PROMISE | kind::CONTINUATION => MOST_FIELDS,
        kind::RST_STREAM | kind::WINDOW_UPDATE => 4,
        kind::SETTINGS => head.length as usize,
        kind::PING => PING,
        kind::GOAWAY => MOST_GOAWAY,
        _ => 0,
    }
}

/// A record of a side with payload, its packet and its time.
#[derive(Clone, Copy, Debug, PartialEq, Eq)]
pub struct Came {
    pub record: u64,
    pub at: At,
    pub connection: usize,
    pub side: usize,
}

/// A segment's payload.
#[derive(Clone, Copy, Debug, PartialEq, Eq)]
pub struct Payload<'a> {
    pub sequence: u32,
    pub flags: u8,
    pub octets: &'a [u8],
}

pub struct FrameLog {
    file: File,
    /// What goes to the file next; its last entry begins here, and may get more frames.
    buffer: Vec<u8>,
    begin: usize,
    /// When the packets of the entry's first frame came, where that was at several times.
    times: u32,
    last: Place,
}

/// An entry that is read.
pub struct Entry<'a> {
    pub came: Came,
    pub found: Logged<'a>,
}

pub enum Logged<'a> {
    Frames(Frames<'a>),
    /// A payload that could not be placed when it came.
    Unplaced(Payload<'a>),
}

/// Frames that a record completed.
pub struct Frames<'a> {
    /// The stream of the frame that the other side had begun by then.
    pub begun: Option<u32>,
    /// When the packets of the first one came, and how many bytes of it had come by then, where that was at several
    /// times; those of all others came with the record.
    first: &'a [Nanos],
    arrived: &'a [u32],
    octets: &'a [u8],
}

impl FrameLog {
    pub fn new() -> Result<FrameLog, Failure> {
        let file = tempfile::tempfile().map_err(|error| temporary_failure(&error))?;
        Ok(FrameLog { file, buffer: vec![0; FRONT], begin: 0, times: 0, last: Place::default() })
    }

    /// Takes back all of it.
    pub fn begin_anew(&mut self) -> io::Result<()> {
        self.forget();
        self.last = Place::default();
        self.file.seek(SeekFrom::Start(0))?;
        self.file.set_len(0)
    }

    fn forget(&mut self) {
        self.buffer.clear();
        self.buffer.resize(FRONT, 0);
        (self.begin, self.times) = (0, 0);
    }

    /// Adds a frame that the record completes, with what of its payload is wanted.
    #[inline]
    pub fn push(&mut self, cut: &Cut<'_>) {
        if cut.times.len() > 1 {
            self.times = cut.times.len() as u32;
            cut.times.iter().for_each(|time| self.buffer.extend_from_slice(&time.to_le_bytes()));
            let arrived = cut.arrived.iter().copied().chain(std::iter::repeat(0)).take(cut.times.len());
            arrived.for_each(|bytes| self.buffer.extend_from_slice(&bytes.to_le_bytes()));
        }
        self.buffer.extend_from_slice(&cut.head.octets());
        if !cut.payload.is_empty() {
            self.buffer.extend_from_slice(cut.payload);
        }
    }

    /// The record is over, with the stream of the frame that the other side has begun.
    pub fn end(&mut self, came: &Came, begun: Option<u32>) -> io::Result<()> {
        if self.buffer.len() > self.begin + FRONT {
            return self.put(came, begun.unwrap_or(0));
        }
        Ok(())
    }

    /// Adds a payload that cannot be placed yet.
    pub fn put_aside(&mut self, came: &Came, payload: &Payload<'_>) -> io::Result<()> {
        self.buffer.extend_from_slice(&payload.sequence.to_le_bytes());
        self.buffer.push(payload.flags);
        self.buffer.extend_from_slice(payload.octets);
        self.put(came, UNPLACED)
    }

    fn put(&mut self, came: &Came, begun: u32) -> io::Result<()> {
        let mut flags = 0;
        if begun | self.times != 0 {
            flags |= IS_MORE;
            self.buffer.extend_from_slice(&begun.to_le_bytes());
            self.buffer.extend_from_slice(&self.times.to_le_bytes());
        }
        let place = Place::of(came);
        let above = place.above(&self.last);
        if above.is_none() {
            flags |= IS_FAR;
            let numbers = [place.record, place.packet, place.time as u64];
            numbers.iter().for_each(|number| self.buffer.extend_from_slice(&number.to_le_bytes()));
        }
        self.last = place;
        let (record, packet, time) = above.unwrap_or_default();
        let front = &mut self.buffer[self.begin..];
        let length = (front.len() - FRONT) as u32 | flags;
        // Each connection takes memory, so that there are no 2^31.
        let sender = (came.connection * 2 + came.side) as u32;
        front[..4].copy_from_slice(&length.to_le_bytes());
        front[4..8].copy_from_slice(&sender.to_le_bytes());
        front[8..10].copy_from_slice(&record.to_le_bytes());
        front[10..12].copy_from_slice(&packet.to_le_bytes());
        front[12..FRONT].copy_from_slice(&time.to_le_bytes());
        self.times = 0;
        self.begin = self.buffer.len();
        if self.begin >= BUFFER {
            self.file.write_all(&self.buffer)?;
            self.forget();
        } else {
            self.buffer.extend_from_slice(&[0; FRONT]);
        }
        Ok(())
    }

    /// Reads all that is there now; more may be added meanwhile.
    pub fn reader(&mut self) -> io::Result<FrameReader> {
        self.file.write_all(&self.buffer[..self.begin])?;
        self.buffer = Vec::new(); // its room goes back, as mostly no more is added
        self.forget();
        let file = self.file.try_clone()?;
        let size = file.metadata()?.len();
        Ok(FrameReader {
            file,
            size,
            read: 0,
            window: Vec::new(),
            filled: 0,
            place: 0,
            last: Place::default(),
            times: Default::default(),
        })
    }
}

pub struct FrameReader {
    file: File,
    size: u64,
    /// Up to here the file is in the window or behind it; up to here the window holds something, and was taken.
    read: u64,
    window: Vec<u8>,
    filled: usize,
    place: usize,
    last: Place,
    times: Times,
}

/// When the packets of a frame came, and how many bytes of it had come by then.
type Times = (Vec<Nanos>, Vec<u32>);

impl FrameReader {
    pub fn size(&self) -> u64 {
        self.size
    }

    /// The next entry; none at the end.
    #[allow(clippy::should_implement_trait)] // an entry borrows from the reader, which no Iterator's may
    pub fn next(&mut self) -> io::Result<Option<Entry<'_>>> {
        if self.read == self.size && self.place == self.filled {
            return Ok(None);
        }
        self.fill(FRONT)?;
        let length = (Front::of(&self.window[self.place..]).flags & !(IS_FAR | IS_MORE)) as usize;
        self.fill(FRONT + length)?;
        let entry = &self.window[self.place..][..FRONT + length];
        self.place += FRONT + length;
        Ok(Some(entry_of(Front::of(entry), &entry[FRONT..], &mut self.last, &mut self.times)))
    }

    /// Sees to it that the window holds so much of what comes next.
    #[inline(always)] // it mostly does
    fn fill(&mut self, size: usize) -> io::Result<()> {
        match self.filled - self.place >= size {
            true => Ok(()),
            false => self.read_on(size),
        }
    }

    #[inline(never)]
    fn read_on(&mut self, size: usize) -> io::Result<()> {
        self.window.copy_within(self.place..self.filled, 0);
        let begin = self.filled - self.place;
        self.place = 0;
        let room = size.max(BUFFER);
        match self.window.is_empty() {
            true => self.window = vec![0; room], // of the system's zeros, which take no memory until they are used
            false => self.window.resize(room, 0),
        }
        self.window.shrink_to(room);
        let more = (self.size - self.read).min((room - begin) as u64) as usize;
        self.file.read_exact_at(&mut self.window[begin..begin + more], self.read)?;
        self.read += more as u64;
        Progress::add(more as u64);
        self.filled = begin + more;
        if self.filled < size {
            return Err(ErrorKind::UnexpectedEof.into());
        }
        Ok(())
    }
}

/// The numbers that begin an entry.
struct Front {
    flags: u32,
    sender: u32,
    record: u16,
    packet: u16,
    time: u32,
}

impl Front {
    #[inline]
    fn of(entry: &[u8]) -> Front {
        let front = entry.get(..FRONT).and_then(|front| front.try_into().ok()).map_or(0, u128::from_le_bytes);
        Front {
            flags: front as u32,
            sender: (front >> 32) as u32,
            record: (front >> 64) as u16,
            packet: (front >> 80) as u16,
            time: (front >> 96) as u32,
        }
    }
}

#[inline]
fn entry_of<'a>(front: Front, behind: &'a [u8], place: &mut Place, (first, arrived): &'a mut Times) -> Entry<'a> {
    let (Front { flags, sender, record, packet, time }, mut octets) = (front, behind);
    if flags & IS_FAR != 0 {
        let far = taken_from_end(&mut octets, FAR);
        let [record, packet, time] = [0, 1, 2].map(|index| number_at(far, index));
        *place = Place { record, packet, time: time as Nanos };
    } else {
        place.record = place.record.wrapping_add(u64::from(record));
        place.packet = place.packet.wrapping_add(u64::from(packet));
        place.time = place.time.wrapping_add(Nanos::from(time));
    }
    let (mut begun, mut count) = (0, 0);
    if flags & IS_MORE != 0 {
        let more = taken_from_end(&mut octets, MORE);
        (begun, count) = (four_at(more, 0), four_at(more, 4) as usize);
    }
    let at = At { packet: place.packet, time: place.time, frame: 0 };
    let (connection, side) = ((sender / 2) as usize, (sender % 2) as usize);
    let came = Came { record: place.record, at, connection, side };
    let found = match (begun, octets) {
        (UNPLACED, [a, b, c, d, flags, octets @ ..]) => {
            Logged::Unplaced(Payload { sequence: u32::from_le_bytes([*a, *b, *c, *d]), flags: *flags, octets })
        }
        _ => {
            let (times, octets) = octets.split_at((count * TIME).min(octets.len()));
            let (bytes, octets) = octets.split_at((count * BYTES).min(octets.len()));
            first.clear();
            arrived.clear();
            if count == 0 {
                first.push(at.time);
            } else {
                first.extend((0..count).map(|at| number_at(times, at) as Nanos));
                let fours = bytes.chunks_exact(BYTES).filter_map(|four| four.try_into().ok());
                arrived.extend(fours.map(u32::from_le_bytes));
            }
            Logged::Frames(Frames { begun: Some(begun).filter(|begun| *begun != 0), first, arrived, octets })
        }
    };
    Entry { came, found }
}

impl Frames<'_> {
    /// Gives each of them.
    pub fn each<E>(&self, mut give: impl FnMut(&Cut<'_>) -> Result<(), E>) -> Result<(), E> {
        let others = &self.first[self.first.len().saturating_sub(1)..];
        let (mut times, mut arrived, mut rest) = (self.first, self.arrived, self.octets);
        while let Some(header) = rest.get(..HEADER).and_then(|front| <&[u8; HEADER]>::try_from(front).ok()) {
            let head = Head::of(header);
            let end = (HEADER + wants(&head).min(head.length as usize)).min(rest.len());
            give(&Cut { head, payload: &rest[HEADER..end], times, arrived })?;
            (times, arrived, rest) = (others, &[], &rest[end..]);
        }
        Ok(())
    }
}

#[cfg(test)]
mod tests;
