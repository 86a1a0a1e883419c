//! A TCP segment in its datagram.

use super::{IPV4_HEADER, TCP_HEADER};
use crate::bytes::{u16_at, u32_at};
use crate::link_layers::{is_audited_at, payload_of, IPV4_TYPE};
use crate::packets::Packet;

/// Source and destination address, source and destination port.
pub type Ends = [u8; 12];

/// The ends of what the other side sends.
#[inline]
pub fn swapped(ends: &Ends) -> Ends {
    let mut other = [0; 12];
    other[..4].copy_from_slice(&ends[4..8]);
    other[4..8].copy_from_slice(&ends[..4]);
    other[8..10].copy_from_slice(&ends[10..]);
    other[10..].copy_from_slice(&ends[8..10]);
    other
}

/// A TCP segment in its IPv4 datagram.
#[derive(Clone, Copy, Debug)]
pub struct Segment<'a> {
    pub ends: Ends,
    pub sequence: u32,
    pub acknowledgement: u32,
    pub flags: u8,
    pub window: u16,
    /// The identification of the IPv4 datagram; 0 with IPv6, which has none.
    pub identification: u16,
    /// Where the payload begins and ends in the datagram.
    pub start: usize,
    pub end: usize,
    /// How many bytes the datagram had.
    pub original: u32,
    pub is_snapped: bool,
    /// Where the segment begins in the datagram.
    pub tcp: usize,
    pub(super) front: [u8; IPV4_HEADER],
    pub(super) front_length: usize,
    pub(super) rest: &'a [u8],
}

impl<'a> Segment<'a> {
    /// The datagram, in two parts.
    #[inline]
    pub fn datagram(&self) -> [&[u8]; 2] {
        [&self.front[..self.front_length], self.rest]
    }

    #[inline]
    pub fn datagram_length(&self) -> usize {
        self.front_length + self.rest.len()
    }

    /// The bytes of the datagram before the payload.
    #[inline]
    pub fn headers(&self) -> [&[u8]; 2] {
        [&self.front[..self.front_length], &self.rest[..self.start - self.front_length]]
    }

    #[inline]
    pub fn payload(&self) -> &'a [u8] {
        &self.rest[self.start - self.front_length..self.end - self.front_length]
    }

    #[inline]
    pub fn has_payload(&self) -> bool {
        self.end > self.start
    }

    /// Whether h2audit finds it in its packet, as that stands.
    #[inline]
    pub fn stands_in(&self, packet: &Packet<'_>) -> bool {
        let at = packet.data.len().saturating_sub(self.rest.len());
        self.front_length == 0 && packet.link.map_or(false, |link| is_audited_at(link, packet.data, at))
    }

    /// The segment of an IPv4 datagram that is known to hold one.
    #[inline]
    pub(super) fn of_ipv4(found: &InIpv4<'a>) -> Segment<'a> {
        let InIpv4 { datagram, original, tcp, sequence, acknowledgement, flags, start, end } = *found;
        let (captured, total) = (datagram.len(), usize::from(u16_at(datagram, 2)));
        let mut ends = [0; 12];
        ends[..8].copy_from_slice(&datagram[12..20]);
        ends[8..].copy_from_slice(&datagram[tcp..tcp + 4]);
        Segment {
            ends,
            sequence,
            acknowledgement,
            flags,
            window: u16_at(datagram, tcp + 14),
            identification: u16_at(datagram, 4),
            start,
            end,
            original,
            is_snapped: total > captured || total == 0 && captured < original as usize,
            tcp,
            front: [0; IPV4_HEADER],
            front_length: 0,
            rest: datagram,
        }
    }

    /// A copy that may be kept.
    pub fn held(&self) -> HeldSegment {
        let mut bytes = Vec::with_capacity(self.datagram_length());
        self.datagram().iter().for_each(|part| bytes.extend_from_slice(part));
        HeldSegment { fields: Segment { front_length: 0, rest: &[], ..*self }, bytes: bytes.into_boxed_slice() }
    }
}

/// A segment in a datagram of IPv4 where one was found before: what is wanted of it to write it as it stands.
#[derive(Clone, Copy, Debug)]
pub struct InIpv4<'a> {
    pub datagram: &'a [u8],
    /// How many bytes the datagram had.
    pub original: u32,
    /// Where the segment begins in the datagram.
    pub tcp: usize,
    pub sequence: u32,
    pub acknowledgement: u32,
    pub flags: u8,
    /// Where the payload begins and ends in the datagram.
    pub start: usize,
    pub end: usize,
}

impl<'a> InIpv4<'a> {
    /// Finds the segment of a packet again, for which not all rules are looked at; none of IPv6.
    #[inline]
    pub fn again(packet: &Packet<'a>) -> Option<InIpv4<'a>> {
        match payload_of(packet.link?, packet.data) {
            Ok((Some(IPV4_TYPE), at)) => InIpv4::of(&packet.data[at..], packet.original.saturating_sub(at as u32)),
            _ => None,
        }
    }

    #[inline]
    pub(super) fn of(datagram: &'a [u8], original: u32) -> Option<InIpv4<'a>> {
        let captured = datagram.len();
        let front: &[u8; IPV4_HEADER] = datagram.get(..IPV4_HEADER)?.try_into().ok()?;
        let (tcp, total) = (usize::from(front[0] & 15) * 4, usize::from(u16_at(front, 2)));
        let head: &[u8; TCP_HEADER] = datagram.get(tcp..tcp + TCP_HEADER)?.try_into().ok()?;
        let start = tcp + usize::from(head[12] >> 4) * 4;
        let end = if 0 < total && total < captured { total } else { captured };
        let (sequence, acknowledgement, flags) = (u32_at(head, 4), u32_at(head, 8), head[13]);
        (start <= end).then(|| InIpv4 { datagram, original, tcp, sequence, acknowledgement, flags, start, end })
    }
}

/// A segment with bytes of its own.
#[derive(Debug)]
pub struct HeldSegment {
    fields: Segment<'static>,
    bytes: Box<[u8]>,
}

impl HeldSegment {
    #[inline]
    pub fn segment(&self) -> Segment<'_> {
        Segment { rest: &self.bytes, ..self.fields }
    }
}
