//! Whether a fault can be doubted, and which packets set the window that it is about (docs/WHY.md, 6).

use std::collections::{HashMap, VecDeque};

use joined::Inferred;
use reports::{grouped, Finding};

use crate::answer::{At, Certainty};
use crate::joining::is_by_inference;
use crate::learning::Known;
use crate::seen::Key;
use crate::settings::{Settings, ENABLE_PUSH, INITIAL_WINDOW, MAX_FRAME_SIZE};
use crate::side_of;

const STREAM_WINDOW: [&str; 3] = ["stream-overrun", "stream-overflow", "setting-overflow"];
const CONNECTION_WINDOW: [&str; 2] = ["connection-overrun", "connection-overflow"];
const MOST_GRANTS: usize = 8;

/// The last grants for one window, how many there were, and what they granted together.
#[derive(Debug, Default)]
pub struct Grants {
    last: VecDeque<At>,
    count: u64,
    sum: u64,
}

impl Grants {
    pub fn add(&mut self, at: At, amount: u32) {
        if self.last.len() == MOST_GRANTS {
            self.last.pop_front();
        }
        self.last.push_back(at);
        self.count += 1;
        self.sum += u64::from(amount);
    }

    fn words(&self) -> String {
        let packets: Vec<String> = self.last.iter().map(|at| at.packet.to_string()).collect();
        let last = if self.count > MOST_GRANTS as u64 { "the last in " } else { "" };
        let word = if self.count > 1 { "packets" } else { "packet" };
        let (sum, count) = (grouped(self.sum), grouped(self.count));
        format!("{sum} granted in {count} WINDOW_UPDATE ({last}{word} {})", packets.join(", "))
    }
}

/// The windows that faults are about.
pub fn windows_of(faults: &[Finding]) -> HashMap<Key, Grants> {
    let is_of_window = |fault: &&Finding| {
        let name = fault.kind.name();
        STREAM_WINDOW.contains(&name) || CONNECTION_WINDOW.contains(&name)
    };
    faults.iter().filter(is_of_window).map(|fault| (key_of(fault), Grants::default())).collect()
}

fn key_of(fault: &Finding) -> Key {
    (fault.side as usize, u32::try_from(fault.stream).unwrap_or(u32::MAX))
}

/// Why it can be doubted, also by what is inferred of its connection.
pub fn certainty_of(
    fault: &Finding,
    known: &Known,
    settings: &Settings,
    inferred: Option<&Inferred>,
) -> (Certainty, String) {
    for (side, gap) in known.gaps.iter().enumerate() {
        if gap.is_some() && fault.record > known.arrivals[side] {
            let why = format!("bytes of the {} were lost before it, so it may not have happened", side_of(side));
            return (Certainty::Gap, why);
        }
    }
    if let Some((_, packet)) = known.back.filter(|back| back.0 <= fault.record) {
        let front = format!("the connection's times go back at packet {packet}");
        return (Certainty::Clock, format!("{front}, so its packets may stand in another order: {}", known.help));
    }
    if inferred.map_or(false, |inferred| is_by_inference(inferred, fault)) {
        let why = "it rests on what is inferred of a connection that began before the capture";
        return (Certainty::Joined, why.to_string());
    }
    match other_settings(fault, settings) {
        Some(why) => (Certainty::Settings, why),
        None => (Certainty::Certain, String::new()),
    }
}

/// Whether it is gone where settings count from their SETTINGS on, and not from the acknowledgement.
fn other_settings(fault: &Finding, settings: &Settings) -> Option<String> {
    let side = fault.side as usize;
    let (found, is_gone) = match fault.kind.name() {
        "stream-overrun" => {
            let found = settings.at_fault(side, INITIAL_WINDOW);
            let credit = fault.value.saturating_sub(i64::from(found.in_force));
            let is_gone = found.pending.iter().any(|value| credit.saturating_add(i64::from(*value)) >= 0);
            (found, is_gone)
        }
        "long-frame" | "too-long" => {
            let found = settings.at_fault(side, MAX_FRAME_SIZE);
            let is_gone = found.pending.iter().any(|value| fault.value <= i64::from(*value));
            (found, is_gone)
        }
        "push" if side == 1 => {
            let found = settings.at_fault(side, ENABLE_PUSH);
            let is_gone = found.pending.contains(&1);
            (found, is_gone)
        }
        _ => return None,
    };
    let gone = format!("it is gone if the SETTINGS in packet {} count from there on", found.packet);
    is_gone.then(|| format!("{gone}: the {} had not acknowledged them", fault.side))
}

/// The packets that set a window up to a fault: the SETTINGS of its initial size, and the grants.
pub fn set_by(fault: &Finding, settings: &Settings, grants: &HashMap<Key, Grants>) -> (Vec<At>, String) {
    let grants = match grants.get(&key_of(fault)) {
        Some(grants) if windows_of(std::slice::from_ref(fault)).len() == 1 => grants,
        _ => return (Vec::new(), String::new()),
    };
    let (mut places, first) = match fault.stream {
        0 => (Vec::new(), "65,535 at first".to_string()),
        _ => initial_window(settings, fault.side as usize),
    };
    places.extend(&grants.last);
    let granted = if grants.count > 0 { grants.words() } else { "nothing granted".to_string() };
    (places, format!("{first}; {granted}"))
}

fn initial_window(settings: &Settings, side: usize) -> (Vec<At>, String) {
    match settings.initial_window(side) {
        None => (Vec::new(), "initial window 65,535, which no SETTINGS changed".to_string()),
        Some((value, sent, answer)) => {
            let packets = format!("packet {}, acknowledged in packet {}", sent.packet, answer.packet);
            (vec![sent, answer], format!("initial window {} by SETTINGS in {packets}", grouped(value)))
        }
    }
}

#[cfg(test)]
mod tests {
    use super::*;
    use crate::learning::Learned;
    use captures::Arrival;
    use reports::{Kind, Side};

    fn at(packet: u64) -> At {
        At { packet, time: 0, frame: packet as u32 }
    }

    fn fault(kind: &str, stream: u64, value: i64) -> Finding {
        Finding { frame: 9, record: 9, time: 0, side: Side::Server, kind: Kind::of(kind), stream, value }
    }

    fn known() -> Known {
        Learned::new(1, at(1), 0).known()
    }

    fn settings() -> Settings {
        let mut settings = Settings::default();
        settings.sent(0, at(2), [None, Some(1000), None]);
        settings.acknowledged(1, at(3));
        settings.sent(0, at(4), [Some(1), Some(5000), Some(20_000)]);
        settings
    }

    #[test]
    fn the_first_doubt_counts() {
        let mut known = known();
        let overrun = fault("stream-overrun", 1, -10);
        assert_eq!(certainty_of(&overrun, &known, &Settings::default(), None), (Certainty::Certain, String::new()));
        let (certainty, why) = certainty_of(&overrun, &known, &settings(), None);
        assert_eq!(certainty, Certainty::Settings);
        let gone = "it is gone if the SETTINGS in packet 4 count from there on: the server had not acknowledged them";
        assert_eq!(why, gone);
        known.back = Some((9, 70));
        let (certainty, why) = certainty_of(&overrun, &known, &settings(), None);
        assert_eq!(certainty, Certainty::Clock);
        assert!(why.ends_with("packet 70, so its packets may stand in another order: --reorder"));
        known.gaps[0] = Some(Arrival { packet: 5, nanos: 0 });
        known.arrivals[0] = 9;
        assert_eq!(certainty_of(&overrun, &known, &settings(), None).0, Certainty::Clock, "the gap is behind it");
        known.arrivals[0] = 8;
        assert_eq!(certainty_of(&overrun, &known, &settings(), None).0, Certainty::Gap);
    }

    #[test]
    fn settings_on_which_a_fault_hangs() {
        let certainty = |kind, value| certainty_of(&fault(kind, 1, value), &known(), &settings(), None).0;
        assert_eq!(certainty("stream-overrun", -4001), Certainty::Certain);
        assert_eq!(certainty("stream-overrun", -4000), Certainty::Settings);
        assert_eq!(certainty("long-frame", 20_000), Certainty::Settings);
        assert_eq!(certainty("too-long", 20_001), Certainty::Certain);
        assert_eq!(certainty("push", 0), Certainty::Settings);
        assert_eq!(certainty("after-end", 0), Certainty::Certain);
    }

    #[test]
    fn packets_that_set_a_window() {
        let overrun = fault("stream-overrun", 1, -1);
        let mut grants = windows_of(std::slice::from_ref(&overrun));
        let (places, text) = set_by(&overrun, &settings(), &grants);
        assert_eq!(places, [at(2), at(3)]);
        let initial = "initial window 1,000 by SETTINGS in packet 2, acknowledged in packet 3";
        assert_eq!(text, format!("{initial}; nothing granted"));
        for packet in 10..20 {
            grants.entry((1, 1)).or_default().add(at(packet), 700);
        }
        let (places, text) = set_by(&overrun, &settings(), &grants);
        assert_eq!(places.len(), 2 + MOST_GRANTS);
        let granted = "7,000 granted in 10 WINDOW_UPDATE (the last in packets 12, 13, 14, 15, 16, 17, 18, 19)";
        assert_eq!(text, format!("{initial}; {granted}"));
        let other = set_by(&fault("push", 1, 0), &settings(), &grants);
        assert_eq!(other, (Vec::new(), String::new()));
        let connection = fault("connection-overrun", 0, -1);
        let grants = windows_of(std::slice::from_ref(&connection));
        assert_eq!(set_by(&connection, &settings(), &grants).1, "65,535 at first; nothing granted");
    }
}
