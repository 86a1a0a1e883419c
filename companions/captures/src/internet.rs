//! From packets to TCP segments: IPv4 (RFC 791), IPv6 with its extension headers (RFC 8200), TCP (RFC 9293).
//!
//! The rules for IPv4 are h2audit's, step for step (docs/AUDIT_RULES.md, 2). A segment of IPv6 becomes one of IPv4
//! here, between addresses that stand for its own, so that nothing behind this knows of IPv6.

mod segment;

use crate::bytes::{array_at, u16_at, u32_at};
use crate::error::Error;
use crate::link_layers::{payload_of, IPV4_TYPE, IPV6_TYPE};
use crate::packets::Packet;
use crate::stand_ins::StandIns;

pub use segment::{swapped, Ends, HeldSegment, InIpv4, Segment};

/// Flags of a segment.
pub mod flags {
    pub const FIN: u8 = 1;
    pub const SYN: u8 = 2;
    pub const RST: u8 = 4;
    pub const ACK: u8 = 16;
}

const TCP: u8 = 6;
const UDP: u8 = 17;
/// Extension headers of IPv6.
const HOP_BY_HOP: u8 = 0;
const ROUTING: u8 = 43;
const FRAGMENT: u8 = 44;
const AUTHENTICATION: u8 = 51;
const DESTINATION: u8 = 60;
const MOBILITY: u8 = 135;
const HOST_IDENTITY: u8 = 139;
const SHIM6: u8 = 140;

const IPV4_HEADER: usize = 20;
const IPV6_HEADER: usize = 40;
const TCP_HEADER: usize = 20;

/// Why a packet has no segment.
#[derive(Clone, Copy, Debug, PartialEq, Eq)]
pub enum PassedOver {
    /// Neither IPv4 nor IPv6; with the EtherType, where the link layer has one.
    NotIp(Option<u16>),
    /// Another protocol than TCP; of UDP with the port of the receiver.
    NotTcp(u8, Option<u16>),
    /// A fragment; of which TCP connection, where that can be known.
    Fragment(Option<Fragment>),
    /// By the name of the reason (docs/MAP.md).
    Refused(&'static str),
}

/// What a fragment says of the connection that it belongs to.
#[derive(Clone, Copy, Debug, PartialEq, Eq)]
pub struct Fragment {
    /// Source and destination address.
    pub addresses: [u8; 8],
    pub identification: u32,
    /// Source and destination port, which the first fragment of a datagram has.
    pub ports: Option<[u8; 4]>,
}

type Decoded<'a> = Result<Result<Segment<'a>, PassedOver>, Error>;

fn refused<'a>(name: &'static str) -> Decoded<'a> {
    Ok(Err(PassedOver::Refused(name)))
}

/// Finds the segment of each packet, or says why there is none.
#[derive(Default)]
pub struct Decoder {
    stand_ins: StandIns,
}

impl Decoder {
    /// Fails where the capture is refused, as with addresses that clash.
    #[inline]
    pub fn segment<'a>(&mut self, packet: &Packet<'a>) -> Decoded<'a> {
        let link = match packet.link {
            None => return refused("no-packet"),
            Some(link) if !crate::link_layers::is_read(link) => return refused("link-type"),
            Some(link) => link,
        };
        match payload_of(link, packet.data) {
            Err(why) => refused(why),
            Ok((Some(IPV4_TYPE), start)) => self.ipv4(packet.data, start, packet.original),
            Ok((Some(IPV6_TYPE), start)) => self.ipv6(packet.data, start, packet.original),
            Ok((kind, _)) => Ok(Err(PassedOver::NotIp(kind))),
        }
    }

    /// The segment of a packet in which this found one before: of IPv4 not all rules are looked at again.
    #[inline]
    pub fn again<'a>(&mut self, packet: &Packet<'a>) -> Option<Segment<'a>> {
        match InIpv4::again(packet) {
            Some(found) => Some(Segment::of_ipv4(&found)),
            None => self.segment(packet).ok()?.ok(),
        }
    }

    /// Whether addresses were met that have a stand-in since [`Decoder::take_addresses`].
    pub fn has_addresses(&self) -> bool {
        self.stand_ins.has_new()
    }

    /// Stand-ins that were given out since this was asked last, each with the address of IPv6 that it stands for.
    pub fn take_addresses(&mut self) -> Vec<([u8; 4], [u8; 16])> {
        self.stand_ins.take_new()
    }

    #[inline]
    fn ipv4<'a>(&mut self, data: &'a [u8], start: usize, original: u32) -> Decoded<'a> {
        let datagram = &data[start..];
        let captured = datagram.len();
        if captured < IPV4_HEADER {
            return refused("short-ipv4");
        }
        let (header, total) = (usize::from(datagram[0] & 15) * 4, usize::from(u16_at(datagram, 2)));
        if datagram[0] >> 4 != 4 {
            return refused("bad-version");
        }
        if header < IPV4_HEADER || header > captured {
            return refused("bad-header-length");
        }
        if 0 < total && total < header {
            return refused("bad-total-length");
        }
        if total > captured && data.len() >= original as usize {
            return refused("past-end");
        }
        if u16_at(datagram, 6) & 0x3FFF != 0 {
            return Ok(Err(PassedOver::Fragment(fragment_of_ipv4(datagram, header))));
        }
        if datagram[9] != TCP {
            return Ok(Err(not_tcp(datagram[9], &datagram[header..])));
        }
        if datagram[12] >= 240 || datagram[16] >= 240 {
            self.stand_ins.meet_class_e()?;
        }
        let end = if 0 < total && total < captured { total } else { captured };
        let is_snapped = total > captured || total == 0 && data.len() < original as usize;
        let original = original.saturating_sub(start as u32);
        let found = Datagram { front: None, rest: datagram, at: header, end, original, is_snapped };
        Ok(found.segment(u16_at(datagram, 4)))
    }

    fn ipv6<'a>(&mut self, data: &'a [u8], start: usize, original: u32) -> Decoded<'a> {
        if data.len() < start + IPV6_HEADER {
            return refused("short-ipv6");
        }
        if data[start] >> 4 != 6 {
            return refused("bad-version");
        }
        let (length, original) = (usize::from(u16_at(data, start + 4)), original as usize);
        let end = if length > 0 { start + IPV6_HEADER + length } else { original };
        if end > data.len() && data.len() >= original {
            return refused("past-end");
        }
        let (mut kind, mut at) = (data[start + 6], start + IPV6_HEADER);
        while kind != TCP {
            if !matches!(
                kind,
                HOP_BY_HOP | ROUTING | DESTINATION | MOBILITY | HOST_IDENTITY | SHIM6 | FRAGMENT | AUTHENTICATION
            ) {
                return Ok(Err(not_tcp(kind, data.get(at..).unwrap_or_default())));
            }
            if data.len() < at + 8 {
                return refused("short-ipv6");
            }
            let units = usize::from(data[at + 1]);
            let size = match kind {
                FRAGMENT if data[at + 2] != 0 || data[at + 3] & 0xF9 != 0 => {
                    return Ok(Err(PassedOver::Fragment(self.fragment_of_ipv6(data, start, at))));
                }
                FRAGMENT => 8,
                AUTHENTICATION => (units + 2) * 4,
                _ => (units + 1) * 8,
            };
            (kind, at) = (data[at], at + size);
        }
        self.as_ipv4(data, start, at, end)
    }

    /// The segment that begins at a place of an IPv6 datagram, in an IPv4 datagram.
    ///
    /// One that is too long for that has a total length of 0, which stands for all that was captured.
    fn as_ipv4<'a>(&mut self, data: &'a [u8], start: usize, at: usize, end: usize) -> Decoded<'a> {
        if end < at + TCP_HEADER {
            return refused("short-tcp");
        }
        let source = self.stand_ins.of(array_at(data, start + 8))?;
        let target = self.stand_ins.of(array_at(data, start + 24))?;
        let total = IPV4_HEADER + end - at;
        let said = u16::try_from(total).unwrap_or(0).to_be_bytes();
        let mut front = [0x45, 0, said[0], said[1], 0, 0, 0x40, 0, 64, TCP, 0, 0, 0, 0, 0, 0, 0, 0, 0, 0];
        front[12..16].copy_from_slice(&source);
        front[16..].copy_from_slice(&target);
        let rest = &data[at.min(data.len())..end.min(data.len())];
        let length = IPV4_HEADER + rest.len();
        let found = Datagram {
            front: Some(front),
            rest,
            at: IPV4_HEADER,
            end: length,
            original: total as u32,
            is_snapped: length < total,
        };
        Ok(found.segment(0))
    }

    /// Answers only for addresses that have a stand-in: a fragment gives none out.
    fn fragment_of_ipv6(&self, data: &[u8], start: usize, at: usize) -> Option<Fragment> {
        let is_first = u16_at(data, at + 2) & 0xFFF8 == 0;
        if data[at] != TCP {
            return None;
        }
        let ends =
            [self.stand_ins.known(&array_at(data, start + 8))?, self.stand_ins.known(&array_at(data, start + 24))?];
        let mut addresses = [0; 8];
        addresses[..4].copy_from_slice(&ends[0]);
        addresses[4..].copy_from_slice(&ends[1]);
        let ports = (is_first && data.len() >= at + 12).then(|| array_at(data, at + 8));
        Some(Fragment { addresses, identification: u32_at(data, at + 4), ports })
    }
}

fn fragment_of_ipv4(datagram: &[u8], header: usize) -> Option<Fragment> {
    let is_first = u16_at(datagram, 6) & 0x1FFF == 0;
    let ports = (is_first && datagram.len() >= header + 4).then(|| array_at(datagram, header));
    let identification = u32::from(u16_at(datagram, 4));
    (datagram[9] == TCP).then(|| Fragment { addresses: array_at(datagram, 12), identification, ports })
}

fn not_tcp(protocol: u8, rest: &[u8]) -> PassedOver {
    PassedOver::NotTcp(protocol, (protocol == UDP && rest.len() >= 4).then(|| u16_at(rest, 2)))
}

/// A datagram, and where in it a segment begins and ends.
struct Datagram<'a> {
    front: Option<[u8; IPV4_HEADER]>,
    rest: &'a [u8],
    at: usize,
    end: usize,
    original: u32,
    is_snapped: bool,
}

impl<'a> Datagram<'a> {
    #[inline(always)] // it is large, and not moved then
    fn segment(self, identification: u16) -> Result<Segment<'a>, PassedOver> {
        let front_length = self.front.map_or(0, |front| front.len());
        let room = self.end.saturating_sub(self.at);
        if room < TCP_HEADER {
            return Err(PassedOver::Refused("short-tcp"));
        }
        let tcp = &self.rest[self.at - front_length..];
        let header = usize::from(tcp[12] >> 4) * 4;
        if header < TCP_HEADER || header > room {
            return Err(PassedOver::Refused("bad-data-offset"));
        }
        let front = self.front.unwrap_or_default();
        let mut ends = [0; 12];
        ends[..8].copy_from_slice(if front_length > 0 { &front[12..] } else { &self.rest[12..20] });
        ends[8..].copy_from_slice(&tcp[..4]);
        Ok(Segment {
            ends,
            sequence: u32_at(tcp, 4),
            acknowledgement: u32_at(tcp, 8),
            flags: tcp[13],
            window: u16_at(tcp, 14),
            identification,
            start: self.at + header,
            end: self.end,
            original: self.original,
            is_snapped: self.is_snapped,
            tcp: self.at,
            front,
            front_length,
            rest: self.rest,
        })
    }
}
