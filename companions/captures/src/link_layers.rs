//! Where the datagram begins in a packet, by its link type (tcpdump.org/linktypes.html).

use crate::bytes::{u16_at, u32_at, Order};

/// Raw IP, the link type of captures that are made.
pub const RAW: u16 = 101;
const ETHERNET: u16 = 1;
const LOOP: u16 = 108;
const NULL: u16 = 0;
const LINUX_COOKED: u16 = 113;
const LINUX_COOKED_2: u16 = 276;
/// Raw IP of either version, by its numbers of old, and of one version alone.
const BY_VERSION: [u16; 5] = [12, 14, RAW, 228, 229];

pub const IPV4_TYPE: u16 = 0x0800;
pub const IPV6_TYPE: u16 = 0x86DD;
/// Tags of IEEE 802.1Q and 802.1ad, and that of old that stands for the latter.
const VLAN_TAGS: [u16; 3] = [0x8100, 0x88A8, 0x9100];

/// Whether packets of this link type are read.
#[inline]
pub fn is_read(link: u16) -> bool {
    matches!(link, ETHERNET | LOOP | NULL | LINUX_COOKED | LINUX_COOKED_2) || BY_VERSION.contains(&link)
}

/// Whether h2audit too finds a datagram of IPv4 at this place of a packet (docs/AUDIT_RULES.md, 2).
#[inline]
pub fn is_audited_at(link: u16, data: &[u8], at: usize) -> bool {
    match (link, at) {
        (ETHERNET, 14) | (RAW, 0) => true,
        (ETHERNET, 18) => u16_at(data, 12) == VLAN_TAGS[0],
        _ => false,
    }
}

/// Whether h2audit reads captures of this link type.
pub fn is_audited(link: u16) -> bool {
    matches!(link, ETHERNET | RAW)
}

/// What a packet carries, and where it begins. BSD's loopback names address families that are no EtherType: none.
pub type Payload = (Option<u16>, usize);

/// EtherType and place of what a packet carries, or why there is none.
#[inline]
pub fn payload_of(link: u16, data: &[u8]) -> Result<Payload, &'static str> {
    match link {
        ETHERNET if data.len() < 14 => Err("short-ethernet"),
        ETHERNET => after_tags(data, u16_at(data, 12), 14),
        LINUX_COOKED if data.len() < 16 => Err("short-cooked"),
        LINUX_COOKED => after_tags(data, u16_at(data, 14), 16),
        LINUX_COOKED_2 if data.len() < 20 => Err("short-cooked"),
        LINUX_COOKED_2 => after_tags(data, u16_at(data, 0), 20),
        NULL | LOOP => loopback(link, data),
        _ => match data.first() {
            None => Err("short-ipv4"),
            Some(first) => Ok((Some(if first >> 4 == 6 { IPV6_TYPE } else { IPV4_TYPE }), 0)),
        },
    }
}

/// Type and place of what stands behind any VLAN tags.
#[inline]
fn after_tags(data: &[u8], mut kind: u16, mut at: usize) -> Result<Payload, &'static str> {
    while VLAN_TAGS.contains(&kind) {
        if data.len() < at + 4 {
            return Err("short-ethernet");
        }
        (kind, at) = (u16_at(data, at + 2), at + 4);
    }
    Ok((Some(kind), at))
}

/// BSD's loopback says the address family, in the byte order of the host that captured, or (LOOP) of the network.
fn loopback(link: u16, data: &[u8]) -> Result<Payload, &'static str> {
    if data.len() < 4 {
        return Err("short-loopback");
    }
    let families = [Some(u32_at(data, 0)), (link == NULL).then(|| Order::Little.u32(data, 0))];
    let kind = families.into_iter().flatten().find_map(|family| match family {
        2 => Some(IPV4_TYPE),
        24 | 28 | 30 => Some(IPV6_TYPE), // AF_INET6 of the BSDs and of macOS
        _ => None,
    });
    Ok((kind, 4))
}
