//! What packets without a TCP segment carry: by EtherType or IP protocol, so that a tunnel is named as what it is.

use std::collections::HashMap;

use captures::PassedOver;

const MOST_NAMED: usize = 8;
/// What is no tunnel: other uses of a network, and what is named by number alone.
const NO_TUNNELS: [&str; 9] = ["arp", "lldp", "llc", "icmp", "icmpv6", "udp", "sctp", "quic", "-"];
const UDP: u8 = 17;

#[derive(Clone, Copy, Debug, PartialEq, Eq, Hash, PartialOrd, Ord)]
pub enum Kind {
    EtherType(u16),
    Protocol(u8),
    /// UDP to a port at which tunnels are spoken.
    Udp(u16),
}

/// A kind of packets, and how many there were.
#[derive(Clone, Copy, Debug)]
pub struct Other {
    pub kind: Kind,
    pub packets: u64,
}

impl Kind {
    /// What IEEE and IANA call it, where that may be a tunnel; a dash elsewhere.
    pub fn name(self) -> &'static str {
        match self {
            Kind::EtherType(0x8847 | 0x8848) => "mpls",
            Kind::EtherType(0x8864) => "pppoe-session",
            Kind::EtherType(0x8863) => "pppoe-discovery",
            Kind::EtherType(0x9200 | 0x9300) => "qinq",
            Kind::EtherType(0x88E7) => "provider-backbone-bridge",
            Kind::EtherType(0x88E5) => "macsec",
            Kind::EtherType(0x894F) => "network-service-header",
            Kind::EtherType(0x8926) => "vn-tag",
            Kind::EtherType(0x22EB) => "trill",
            Kind::EtherType(0x0806) => "arp",
            Kind::EtherType(0x88CC) => "lldp",
            Kind::EtherType(kind) if kind < 0x600 => "llc",
            Kind::Protocol(1) => "icmp",
            Kind::Protocol(4) => "ipv4-in-ip",
            Kind::Protocol(UDP) => "udp",
            Kind::Protocol(41) => "ipv6-in-ip",
            Kind::Protocol(47) => "gre",
            Kind::Protocol(50) => "esp",
            Kind::Protocol(58) => "icmpv6",
            Kind::Protocol(94) => "ip-in-ip",
            Kind::Protocol(97) => "ethernet-in-ip",
            Kind::Protocol(115) => "l2tp",
            Kind::Protocol(132) => "sctp",
            Kind::Protocol(137) => "mpls-in-ip",
            Kind::Udp(2152) => "gtp-u",
            Kind::Udp(4789 | 8472) => "vxlan",
            Kind::Udp(6081) => "geneve",
            Kind::Udp(1701) => "l2tp",
            Kind::Udp(443) => "quic",
            _ => "-",
        }
    }
}

/// Whether packets of this name may hold HTTP/2 that is not read.
pub fn is_tunnel(name: &str) -> bool {
    !NO_TUNNELS.contains(&name)
}

/// Counts them by kind.
#[derive(Default)]
pub struct Others(HashMap<Kind, u64>);

impl Others {
    pub fn add(&mut self, passed: &PassedOver) {
        let kind = match *passed {
            PassedOver::NotIp(Some(kind)) => Kind::EtherType(kind),
            PassedOver::NotTcp(UDP, Some(port)) if Kind::Udp(port).name() != "-" => Kind::Udp(port),
            PassedOver::NotTcp(protocol, _) => Kind::Protocol(protocol),
            _ => return,
        };
        *self.0.entry(kind).or_insert(0) += 1;
    }

    /// The kinds most seen, the most frequent first.
    pub fn most_seen(&self) -> Vec<Other> {
        let mut all: Vec<Other> = self.0.iter().map(|(&kind, &packets)| Other { kind, packets }).collect();
        all.sort_by_key(|other| (u64::MAX - other.packets, other.kind));
        all.truncate(MOST_NAMED);
        all
    }
}
