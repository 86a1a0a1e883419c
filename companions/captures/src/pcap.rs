//! Classic pcap files, version 2.4, of either byte order and either unit of time.

mod records;

use std::io::{self, Write};

use crate::bytes::Order;
use crate::error::Error;
use crate::link_layers;
use crate::packets::{Item, Packet, MOST_CAPTURED};
use crate::refusal::Refusal;
use crate::source::Source;

pub use records::Records;

pub const HEADER_LENGTH: usize = 24;
pub const RECORD_HEADER_LENGTH: usize = 16;
const NANOS: i64 = 1_000_000_000;

/// Byte order, and nanoseconds of a unit of time, of a file that begins so.
pub fn format_of(magic: &[u8]) -> Option<(Order, u32)> {
    [Order::Little, Order::Big].into_iter().find_map(|order| match order.u32(magic, 0) {
        0xA1B2_C3D4 => Some((order, 1000)),
        0xA1B2_3C4D => Some((order, 1)),
        _ => None,
    })
}

/// What stands at the beginning of a file.
#[derive(Clone, Copy, Debug)]
pub struct Header {
    pub order: Order,
    /// Nanoseconds of a unit of time.
    pub unit: u32,
    pub snapshot_length: u32,
    pub link: u16,
}

impl Header {
    /// Reads the header of a file whose magic is that of pcap.
    pub fn read(source: &mut Source) -> Result<Header, Error> {
        let head = source.fill(HEADER_LENGTH)?;
        if head.len() < HEADER_LENGTH {
            return Err(Error::refused("short-header"));
        }
        let (order, unit) = format_of(head).ok_or_else(|| Error::refused("bad-magic"))?;
        if (order.u16(head, 4), order.u16(head, 6)) != (2, 4) {
            return Err(Error::refused("bad-version"));
        }
        let link = (order.u32(head, 20) & 0xFFFF) as u16;
        let header = Header { order, unit, snapshot_length: order.u32(head, 16), link };
        source.consume(HEADER_LENGTH);
        Ok(header)
    }

    /// What stands before a packet.
    #[inline(always)]
    fn head_of(&self, record: &[u8; RECORD_HEADER_LENGTH]) -> Head {
        let number = |at| self.order.u32(record, at);
        let nanos = i64::from(number(0)) * NANOS + i64::from(number(4)) * i64::from(self.unit);
        Head { nanos, captured: number(8) as usize, original: number(12) }
    }
}

struct Head {
    nanos: i64,
    captured: usize,
    original: u32,
}

/// The packets of a file.
pub struct Reader {
    source: Source,
    header: Header,
    /// How many bytes the last record has, which are still in view.
    pending: usize,
    has_ended: bool,
}

impl Reader {
    /// Reads the header of a file whose magic is that of pcap, and whose link type is read.
    pub fn new(mut source: Source) -> Result<Reader, Error> {
        let header = Header::read(&mut source)?;
        if !link_layers::is_read(header.link) {
            return Err(Error::Refused(Refusal::of_link(header.link)));
        }
        Ok(Reader { source, header, pending: 0, has_ended: false })
    }

    pub fn source(&self) -> &Source {
        &self.source
    }

    pub fn header(&self) -> Header {
        self.header
    }

    /// Where the next record stands in its file, unless that is compressed.
    #[inline]
    pub fn next_place(&self) -> Option<u64> {
        self.source.place().map(|place| place + self.pending as u64)
    }

    #[allow(clippy::should_implement_trait)] // an item borrows from the reader, which no Iterator's may
    #[inline]
    pub fn next(&mut self) -> Result<Option<Item<'_>>, Error> {
        if self.has_ended {
            return Ok(None);
        }
        self.source.consume(self.pending);
        self.pending = 0;
        let front = self.source.fill(RECORD_HEADER_LENGTH)?;
        let Head { nanos, captured, original } = match front.try_into() {
            Ok(front) => self.header.head_of(front),
            Err(_) => {
                let has_more = !front.is_empty();
                return Ok(self.end(has_more));
            }
        };
        if captured > MOST_CAPTURED {
            self.source.consume(RECORD_HEADER_LENGTH);
            if self.source.skip(captured as u64)? < captured as u64 {
                return Ok(self.end(true));
            }
            return Ok(Some(Item::Packet(Packet { nanos, link: None, data: &[], original })));
        }
        let size = RECORD_HEADER_LENGTH + captured;
        if self.source.fill(size)?.len() < size {
            return Ok(self.end(true));
        }
        self.pending = size;
        let data = &self.source.view(size)[RECORD_HEADER_LENGTH..];
        Ok(Some(Item::Packet(Packet { nanos, link: Some(self.header.link), data, original })))
    }

    fn end(&mut self, is_within_record: bool) -> Option<Item<'static>> {
        self.has_ended = true;
        (is_within_record || self.source.is_cut()).then_some(Item::Cut)
    }
}

/// What stands before a packet of so many bytes. Its time is one of those that can be written.
#[inline]
pub fn record_header(nanos: i64, captured: u32, original: u32) -> [u8; RECORD_HEADER_LENGTH] {
    let mut header = [0; RECORD_HEADER_LENGTH];
    let time = [(nanos as u64 / NANOS as u64) as u32, (nanos as u64 % NANOS as u64) as u32];
    for (place, number) in header.chunks_exact_mut(4).zip([time[0], time[1], captured, original]) {
        place.copy_from_slice(&number.to_le_bytes());
    }
    header
}

/// Whether a time can be written: seconds in 32 bits.
#[inline]
pub fn is_time(nanos: i64) -> bool {
    (0..NANOS << 32).contains(&nanos)
}

/// Writes packets of nanoseconds, numbers in the order of most machines.
pub struct Writer<W: Write> {
    out: W,
    /// The header of a record, with what follows it where that is short.
    head: Vec<u8>,
}

const MOST_JOINED: usize = 256;

const SNAPSHOT_LENGTH: u32 = 1 << 18;

/// Writes the header of a file, before any packet.
pub fn write_header(out: &mut (impl Write + ?Sized), link: u16) -> io::Result<()> {
    let mut head = [0; HEADER_LENGTH];
    head[..4].copy_from_slice(&0xA1B2_3C4D_u32.to_le_bytes());
    head[4] = 2;
    head[6] = 4;
    head[16..20].copy_from_slice(&SNAPSHOT_LENGTH.to_le_bytes());
    head[20..22].copy_from_slice(&link.to_le_bytes());
    out.write_all(&head)
}

impl<W: Write> Writer<W> {
    /// Begins a file.
    pub fn new(mut out: W, link: u16) -> io::Result<Writer<W>> {
        write_header(&mut out, link)?;
        Ok(Writer::after_header(out))
    }

    /// Goes on with a file whose header is written.
    pub fn after_header(out: W) -> Writer<W> {
        Writer { out, head: Vec::new() }
    }

    /// Writes a packet, which may stand in two parts.
    #[inline]
    pub fn write(&mut self, nanos: i64, original: u32, parts: [&[u8]; 2]) -> io::Result<()> {
        let length = (parts[0].len() + parts[1].len()) as u32;
        self.head.clear();
        self.head.extend_from_slice(&record_header(nanos, length, original));
        if parts[0].len() > MOST_JOINED {
            self.out.write_all(&self.head)?;
            self.out.write_all(parts[0])?;
        } else {
            if !parts[0].is_empty() {
                self.head.extend_from_slice(parts[0]);
            }
            self.out.write_all(&self.head)?;
        }
        match parts[1] {
            [] => Ok(()),
            part => self.out.write_all(part),
        }
    }

    pub fn get_mut(&mut self) -> &mut W {
        &mut self.out
    }

    pub fn into_inner(self) -> W {
        self.out
    }
}
