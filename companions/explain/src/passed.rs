//! Packets that were passed over, by what they carry (docs/WHY.md, 8).

use import::{is_tunnel, Kind, Other, Summary};

/// Reasons, how many packets each has, and in which words: tunnels by name, and all else as h2audit counts it.
pub fn passed_over(summary: &Summary, is_nothing_audited: bool) -> Vec<(&'static str, u64, String)> {
    let is_told = |other: &&Other| {
        let name = other.kind.name();
        name != "-" && (is_nothing_audited || is_tunnel(name))
    };
    let named: Vec<&Other> = summary.others.iter().filter(is_told).collect();
    let mut said: Vec<_> = named.iter().map(|other| (other.kind.name(), other.packets, words_of(other))).collect();
    let of_no_ip = |other: &&&Other| matches!(other.kind, Kind::EtherType(_));
    let told: u64 = named.iter().filter(of_no_ip).map(|other| other.packets).sum();
    let counts = &summary.counts;
    let counted = [
        ("not-ipv4", counts.not_ipv4.saturating_sub(told), "neither IPv4 nor IPv6"),
        ("fragments", counts.fragments, "IP fragments"),
        ("refused", counts.refused, "with damaged or cut headers"),
    ];
    said.extend(counted.map(|(name, number, words)| (name, number, words.to_string())));
    said.retain(|one| one.1 > 0);
    said
}

fn words_of(other: &Other) -> String {
    let name = other.kind.name();
    match is_tunnel(name) {
        true => format!("of {name}, within which nothing is read"),
        false => format!("of {name}"),
    }
}

#[cfg(test)]
mod tests {
    use super::*;

    #[test]
    fn tunnels_have_names() {
        let mut summary = Summary::default();
        let other = |kind, packets| Other { kind, packets };
        summary.others = vec![
            other(Kind::EtherType(0x8847), 7),
            other(Kind::EtherType(0x806), 3),
            other(Kind::Udp(4789), 2),
            other(Kind::Protocol(99), 1),
        ];
        summary.counts.not_ipv4 = 10;
        let names =
            |is_nothing| passed_over(&summary, is_nothing).into_iter().map(|one| (one.0, one.1)).collect::<Vec<_>>();
        assert_eq!(names(false), [("mpls", 7), ("vxlan", 2), ("not-ipv4", 3)]);
        assert_eq!(names(true), [("mpls", 7), ("arp", 3), ("vxlan", 2)]);
        assert_eq!(passed_over(&summary, false)[0].2, "of mpls, within which nothing is read");
    }
}
