//! What a capture gives: packets, secrets, and its end.

use crate::error::Error;
use crate::pcap;
use crate::pcapng;
use crate::refusal::{Refusal, LOOKED_AT};
use crate::source::Source;

/// No capture has packets of more bytes; of one that claims to, none is kept.
pub const MOST_CAPTURED: usize = 1 << 24;

/// A captured packet. Its link type is none where a block of pcapng is numbered and is no packet, and where a packet
/// has more than [`MOST_CAPTURED`] bytes.
#[derive(Clone, Copy, Debug)]
pub struct Packet<'a> {
    /// Since 1970; a time that no 64 bits hold is the nearest one that they do.
    pub nanos: i64,
    pub link: Option<u16>,
    pub data: &'a [u8],
    /// How many bytes it had on its link.
    pub original: u32,
}

#[derive(Clone, Copy, Debug)]
pub enum Item<'a> {
    Packet(Packet<'a>),
    /// The text of a Decryption Secrets Block with a key log.
    Secrets(&'a [u8]),
    /// The last item of a file that ends within a packet, or of a compressed one that ends too early.
    Cut,
}

/// The two formats of captures.
#[derive(Clone, Copy, Debug)]
pub enum Format {
    Pcap,
    Pcapng,
}

impl Format {
    /// By the magic of the file, all of which stays to be read.
    pub fn of(source: &mut Source) -> Result<Format, Error> {
        match source.fill(4)? {
            magic if magic == pcapng::MAGIC => Ok(Format::Pcapng),
            magic if magic.len() == 4 && pcap::format_of(magic).is_some() => Ok(Format::Pcap),
            _ => Err(Error::Refused(Refusal::of_beginning(source.fill(LOOKED_AT)?))),
        }
    }
}

/// The items of a capture of either format.
pub enum Reader {
    Pcap(pcap::Reader),
    Pcapng(Box<pcapng::Reader>),
}

impl Reader {
    /// By the magic of the file.
    pub fn new(mut source: Source) -> Result<Reader, Error> {
        Ok(match Format::of(&mut source)? {
            Format::Pcap => Reader::Pcap(pcap::Reader::new(source)?),
            Format::Pcapng => Reader::Pcapng(Box::new(pcapng::Reader::new(source))),
        })
    }

    /// The next item; none at the end.
    #[allow(clippy::should_implement_trait)] // an item borrows from the reader, which no Iterator's may
    #[inline]
    pub fn next(&mut self) -> Result<Option<Item<'_>>, Error> {
        match self {
            Reader::Pcap(reader) => reader.next(),
            Reader::Pcapng(reader) => reader.next(),
        }
    }

    /// How many packets were dropped while the file was captured, as far as it says so up to here.
    pub fn dropped(&self) -> u64 {
        match self {
            Reader::Pcap(_) => 0,
            Reader::Pcapng(reader) => reader.dropped(),
        }
    }

    /// Where the next packet's record stands in its file, if [`pcap::Records`] can find it there once more.
    #[inline]
    pub fn next_place(&self) -> Option<u64> {
        match self {
            Reader::Pcap(reader) => reader.next_place(),
            Reader::Pcapng(_) => None,
        }
    }

    pub fn source(&self) -> &Source {
        match self {
            Reader::Pcap(reader) => reader.source(),
            Reader::Pcapng(reader) => reader.source(),
        }
    }
}
