//! The settings that the sides of a connection announce, and when they are acknowledged (RFC 9113, 6.5).

use crate::answer::{At, SettingSaid};
use crate::side_of;
use crate::waiting::Queue;
use crate::windows::FIRST_CREDIT;

/// The identifiers of SETTINGS on which a window or a fault may hang, and their initial values (6.5.2).
pub const KINDS: [(u16, u32); 3] = [(2, 1), (4, FIRST_CREDIT as u32), (5, 16_384)];
pub const ENABLE_PUSH: usize = 0;
pub const INITIAL_WINDOW: usize = 1;
pub const MAX_FRAME_SIZE: usize = 2;
const HEADER_TABLE_SIZE: u16 = 1;
/// If a connection has more SETTINGS, the first ones are told.
const MOST_TOLD: u32 = 1000;

/// What the SETTINGS of a connection said so far. Nothing is kept of SETTINGS that no longer wait, but what is told.
#[derive(Debug, Default)]
pub struct Settings {
    count: u32,
    /// By the side that sent them.
    queues: [Queue; 2],
    /// By the side that obeys them.
    in_force: [InForce; 2],
    /// The initial windows that the first SETTINGS announced.
    told: Vec<SettingSaid>,
}

/// What a side obeys.
#[derive(Debug, Default)]
struct InForce {
    values: [Option<u32>; 3],
    /// The SETTINGS of its initial window, and the acknowledgement.
    window: Option<(u32, At, At)>,
    changes: Changes,
}

/// The frames that acknowledge an initial window, with the places of those that are told, up to the first that is not.
pub type Changes = Vec<(u32, Option<u32>)>;

/// What SETTINGS say; of several values the last one counts.
#[derive(Clone, Copy, Debug, Default, PartialEq, Eq)]
pub struct Values {
    pub header_table: Option<u32>,
    pub values: [Option<u32>; 3],
}

impl Values {
    pub fn of(payload: &[u8]) -> Values {
        let mut found = Values::default();
        for pair in payload.chunks_exact(6) {
            let [a, b, c, d, e, f] = [0, 1, 2, 3, 4, 5].map(|at| pair[at]);
            let (identifier, value) = (u16::from_be_bytes([a, b]), u32::from_be_bytes([c, d, e, f]));
            if identifier == HEADER_TABLE_SIZE {
                found.header_table = Some(value);
            } else if let Some(kind) = KINDS.iter().position(|kind| kind.0 == identifier) {
                found.values[kind] = Some(value);
            }
        }
        found
    }

    /// The initial window alone.
    pub fn initial_window_of(payload: &[u8]) -> Option<u32> {
        Values::of(payload).values[INITIAL_WINDOW]
    }
}

/// The value in force at a fault, and those that the other side had sent last, with the packet of the last one.
pub struct AtFault {
    pub in_force: u32,
    pub packet: u64,
    pub pending: Vec<u32>,
}

impl Settings {
    /// A side sent SETTINGS.
    pub fn sent(&mut self, side: usize, at: At, values: [Option<u32>; 3]) {
        // SETTINGS that were made up have no frame.
        let is_told = self.count < MOST_TOLD && at.frame > 0;
        self.count = self.count.saturating_add(1);
        let queue = &mut self.queues[side];
        if values.iter().all(Option::is_none) {
            queue.push_other();
            return;
        }
        let told = values[INITIAL_WINDOW].filter(|_| is_told).map(|value| {
            self.told.push(SettingSaid { side: side_of(side), value, at, acknowledged: None });
            self.told.len() as u32 - 1
        });
        queue.push(at, values, told);
    }

    /// A side acknowledges the oldest SETTINGS of the other that wait. Answers the initial window that counts now.
    pub fn acknowledged(&mut self, side: usize, at: At) -> Option<u32> {
        let announced = self.queues[1 - side].acknowledged()?;
        let now = &mut self.in_force[side];
        for (value, announced) in now.values.iter_mut().zip(announced.values) {
            *value = announced.or(*value);
        }
        let window = announced.values[INITIAL_WINDOW]?;
        now.window = Some((window, announced.at, at));
        if announced.told.is_some() || now.changes.last().map_or(true, |last| last.1.is_some()) {
            now.changes.push((at.frame, announced.told));
        }
        if let Some(told) = announced.told.and_then(|told| self.told.get_mut(told as usize)) {
            told.acknowledged = Some(at);
        }
        Some(window)
    }

    /// What holds for a side.
    pub fn at_fault(&self, side: usize, kind: usize) -> AtFault {
        let waiting = self.queues[1 - side].last().filter_map(|one| Some((one.at.packet, one.values[kind]?)));
        AtFault {
            in_force: self.in_force[side].values[kind].unwrap_or(KINDS[kind].1),
            packet: waiting.clone().next().map_or(0, |one| one.0),
            pending: waiting.map(|one| one.1).collect(),
        }
    }

    /// The SETTINGS whose initial window is in force for a side: its value, their place, and their acknowledgement.
    pub fn initial_window(&self, side: usize) -> Option<(u32, At, At)> {
        self.in_force[side].window
    }

    /// The initial windows that are told, and when they changed what each side obeys.
    pub fn said(mut self) -> (Vec<SettingSaid>, [Changes; 2]) {
        self.told.shrink_to_fit();
        self.in_force.iter_mut().for_each(|now| now.changes.shrink_to_fit());
        (self.told, self.in_force.map(|now| now.changes))
    }
}

#[cfg(test)]
mod tests {
    use super::*;

    fn at(frame: u32) -> At {
        At { packet: u64::from(frame) * 10, time: 0, frame }
    }

    fn window(value: u32) -> [Option<u32>; 3] {
        [None, Some(value), None]
    }

    #[test]
    fn settings_count_from_their_acknowledgement() {
        let mut settings = Settings::default();
        settings.sent(1, at(1), window(10));
        settings.sent(1, at(2), [None; 3]);
        settings.sent(1, at(3), window(30));
        settings.sent(1, at(4), window(40));
        assert_eq!(settings.acknowledged(1, at(5)), None, "nobody asked");
        assert_eq!(settings.initial_window(0), None);
        assert_eq!(settings.acknowledged(0, at(6)), Some(10));
        assert_eq!(settings.acknowledged(0, at(7)), None);
        let found = settings.at_fault(0, INITIAL_WINDOW);
        assert_eq!((found.in_force, found.packet, found.pending), (10, 40, vec![40, 30]));
        assert_eq!(settings.at_fault(1, MAX_FRAME_SIZE).in_force, 16_384);
        assert_eq!(settings.initial_window(0), Some((10, at(1), at(6))));
        let (said, changes) = settings.said();
        assert_eq!((said.len(), said[0].acknowledged, said[1].acknowledged), (3, Some(at(6)), None));
        assert_eq!(changes, [vec![(6, Some(0))], vec![]]);
    }

    #[test]
    fn of_many_the_first_are_told_and_those_that_wait_kept() {
        let mut settings = Settings::default();
        for number in 1..=2 * MOST_TOLD {
            settings.sent(1, at(number), window(number));
            settings.acknowledged(0, at(number));
        }
        settings.sent(1, at(9000), window(7));
        assert_eq!(settings.queues[1].last().count(), 1);
        assert_eq!(settings.initial_window(0).map(|one| one.0), Some(2 * MOST_TOLD));
        let (said, [changes, _]) = settings.said();
        assert_eq!((said.len() as u32, changes.len() as u32), (MOST_TOLD, MOST_TOLD + 1));
        assert_eq!(changes.last(), Some(&(MOST_TOLD + 1, None)));
    }

    #[test]
    fn those_that_were_made_up_are_not_told() {
        let mut settings = Settings::default();
        settings.sent(1, at(0), window(10));
        assert_eq!(settings.acknowledged(0, at(0)), Some(10));
        settings.sent(1, at(1), window(20));
        assert_eq!(settings.acknowledged(0, at(2)), Some(20));
        let (said, changes) = settings.said();
        assert_eq!((said.len(), &changes[0][..]), (1, &[(0, None), (2, Some(0))][..]));
    }

    #[test]
    fn those_that_say_nothing_wait_too() {
        let mut settings = Settings::default();
        for values in [[None; 3], window(1), [None; 3], [None; 3], window(2), [None; 3]] {
            settings.sent(0, at(1), values);
        }
        let answered: Vec<_> = (0..8).map(|_| settings.acknowledged(1, at(2))).collect();
        assert_eq!(answered, [None, Some(1), None, None, Some(2), None, None, None]);
    }

    #[test]
    fn the_last_of_several_values_counts() {
        let payload = [0, 4, 0, 0, 0, 1, 0, 1, 0, 0, 1, 0, 0, 4, 0, 0, 0, 2, 0, 9, 0, 0, 0, 0];
        assert_eq!(Values::of(&payload), Values { header_table: Some(256), values: window(2) });
    }
}
