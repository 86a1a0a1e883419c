//! Which packets set a window, as the credit lines of a report tell.
//!
//! A credit line stands at each frame that changes a window. Content changes that of the connection too, at the same
//! frame and by as much; so a window that falls alone falls by settings.

use std::collections::HashMap;

use explain::answer::FIRST_CREDIT;
use reports::{Finding, Side};

/// So many packets are named.
const NAMED: usize = 3;

/// The packets that opened a window or changed it by other than content.
#[derive(Debug, Clone, Default)]
pub struct Setters {
    pub count: u64,
    /// The last of them, in order.
    pub last: Vec<Packet>,
}

/// A packet, and the number of its file where that is not the one that is read.
#[derive(Debug, Clone, Copy, PartialEq, Eq)]
pub struct Packet {
    pub number: u64,
    pub file: Option<u64>,
}

impl Setters {
    fn add(&mut self, packet: u64) {
        let packet = Packet { number: packet, file: None };
        if self.last.last() == Some(&packet) {
            return;
        }
        self.count += 1;
        if self.last.len() == NAMED {
            self.last.remove(0);
        }
        self.last.push(packet);
    }
}

struct ReportedWindow {
    credit: i64,
    setters: Setters,
}

/// The windows of a connection, as far as its report has gone.
#[derive(Default)]
pub struct Windows {
    windows: HashMap<(Side, u64), ReportedWindow>,
    /// The frame at which the connection's window changed last, and whose that was.
    last_of_connection: Option<(u64, Side)>,
}

impl Windows {
    /// Takes a credit line.
    pub fn meet(&mut self, finding: &Finding) {
        let is_connection = finding.stream == 0;
        let has_content = self.last_of_connection == Some((finding.frame, finding.side));
        if is_connection {
            self.last_of_connection = Some((finding.frame, finding.side));
        }
        let known = self.windows.entry(finding.window());
        let is_new = matches!(known, std::collections::hash_map::Entry::Vacant(_));
        let window = known.or_insert_with(|| ReportedWindow { credit: FIRST_CREDIT, setters: Setters::default() });
        let is_set = match is_new && !is_connection {
            true => true,
            false => finding.value > window.credit || !is_connection && !has_content,
        };
        window.credit = finding.value;
        if is_set {
            window.setters.add(finding.record);
        }
    }

    /// The packets that set the window of an overrun, where the report has credit lines.
    pub fn setters_of(&self, overrun: &Finding) -> Option<Setters> {
        self.windows.get(&overrun.window()).map(|window| window.setters.clone())
    }
}

#[cfg(test)]
mod tests {
    use super::{Setters, Windows};
    use reports::{finding_in, Finding};

    fn finding(text: &str) -> Option<Finding> {
        finding_in(text).map(|line| line.finding())
    }

    fn numbers(setters: &Setters) -> Vec<u64> {
        setters.last.iter().map(|packet| packet.number).collect()
    }

    #[test]
    fn openings_grants_and_settings_set_a_window() {
        let mut windows = Windows::default();
        for line in [
            "frame 5 record 12 time 1 client stream-credit stream 1 value 10000",
            "frame 6 record 13 time 1 client connection-credit stream 0 value 55535",
            "frame 6 record 13 time 1 client stream-credit stream 1 value 0",
            "frame 7 record 14 time 1 client stream-credit stream 1 value 500",
            "frame 8 record 15 time 1 client stream-credit stream 1 value -100",
            "frame 9 record 16 time 1 client connection-credit stream 0 value 55545",
            "frame 10 record 17 time 1 client stream-credit stream 1 value 7",
        ] {
            if let Some(finding) = finding(line) {
                windows.meet(&finding);
            }
        }
        let overrun = finding("frame 11 record 18 time 1 client stream-overrun stream 1 value -5");
        let setters = overrun.as_ref().and_then(|overrun| windows.setters_of(overrun)).unwrap_or_default();
        assert_eq!((setters.count, numbers(&setters)), (4, vec![14, 15, 17]));
        let overrun = finding("frame 11 record 18 time 1 client connection-overrun stream 0 value -5");
        let setters = overrun.as_ref().and_then(|overrun| windows.setters_of(overrun)).unwrap_or_default();
        assert_eq!((setters.count, numbers(&setters)), (1, vec![16]));
        let other = finding("frame 11 record 18 time 1 server stream-overrun stream 1 value -5");
        assert!(other.and_then(|overrun| windows.setters_of(&overrun)).is_none());
    }
}
