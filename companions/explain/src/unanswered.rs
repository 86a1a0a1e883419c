//! Settings that would take a window of the other side too high if they counted where they stand: what the capture
//! shows, and the report cannot say by its rules (docs/WHY.md, 7).

use reports::grouped;

use crate::answer::At;
use crate::settings::INITIAL_WINDOW;
use crate::side_of;
use crate::stream::Stream;
use crate::table::Table;
use crate::windows::{Initial, FIRST_CREDIT, MOST_CREDIT};
use crate::words::code_name;

const FLOW_CONTROL_ERROR: u32 = 3;
/// So many SETTINGS of a connection that raise the initial window and are acknowledged are tried for their effect.
const MOST_LOOKS: u32 = 64;

#[derive(Debug)]
pub struct Unanswered {
    /// The frames of the first SETTINGS that are never acknowledged, and how many of each side are.
    frames: Vec<u32>,
    acknowledged: [u32; 2],
    sent: [u32; 2],
    /// The last initial window of each side that is acknowledged sooner or later.
    before: [i64; 2],
    looks: u32,
    /// The last initial window that each side sent: behind how many SETTINGS, where, and its value.
    last: [Option<(u32, At, u32)>; 2],
    /// How many SETTINGS of each side have been acknowledged so far.
    answered: [u32; 2],
    notes: Vec<Note>,
}

#[derive(Debug)]
struct Note {
    side: usize,
    /// How many SETTINGS the side had sent before.
    index: u32,
    at: At,
    acknowledged: Option<At>,
    value: u32,
    highest: i64,
    credit: i64,
    stream: u32,
    goaway: Option<(At, u32)>,
    /// By how many streams were opened before.
    reset: Option<(u32, u32, At)>,
}

impl Unanswered {
    pub fn new(frames: Vec<u32>, acknowledged: [u32; 2]) -> Unanswered {
        Unanswered {
            frames,
            acknowledged,
            sent: [0; 2],
            before: [FIRST_CREDIT; 2],
            looks: 0,
            last: [None; 2],
            answered: [0; 2],
            notes: Vec::new(),
        }
    }

    /// A side sent SETTINGS, while these streams go on.
    pub fn sent(&mut self, side: usize, at: At, values: &[Option<u32>; 3], of: (&Table, &Initial)) {
        let index = self.sent[side];
        self.sent[side] += 1;
        let value = match values[INITIAL_WINDOW] {
            Some(value) => value,
            None => return,
        };
        self.last[side] = Some((index, at, value));
        let before = if index < self.acknowledged[side] {
            let is_higher = i64::from(value) > std::mem::replace(&mut self.before[side], i64::from(value));
            self.looks += u32::from(is_higher);
            Some(of.1.value).filter(|_| is_higher && self.looks <= MOST_LOOKS)
        } else {
            Some(self.before[side]).filter(|_| self.frames.contains(&at.frame))
        };
        let found = before.and_then(|before| Some((before, of.0.highest_credit(1 - side, of.1)?)));
        if let Some((before, (highest, stream))) = found {
            let credit = highest + i64::from(value) - before;
            if credit > MOST_CREDIT {
                let (acknowledged, goaway, reset) = (None, None, None);
                self.notes.push(Note { side, index, at, acknowledged, value, highest, credit, stream, goaway, reset });
            }
        }
    }

    /// A side acknowledges the oldest SETTINGS of the other one that wait.
    pub fn acknowledged(&mut self, side: usize, at: At) {
        let index = self.answered[1 - side];
        if index == self.sent[1 - side] {
            return;
        }
        self.answered[1 - side] += 1;
        for note in self.waiting(side).filter(|note| note.index == index) {
            note.acknowledged = Some(at);
        }
    }

    fn waiting(&mut self, side: usize) -> impl Iterator<Item = &mut Note> {
        self.notes.iter_mut().filter(move |note| note.side != side)
    }

    pub fn goaway(&mut self, side: usize, at: At, code: u32) {
        for note in self.waiting(side).filter(|note| note.acknowledged.is_none() || code == FLOW_CONTROL_ERROR) {
            note.goaway.get_or_insert((at, code));
        }
    }

    /// A side reset a stream, while this initial window is in force for it.
    pub fn reset(&mut self, side: usize, at: At, code: u32, (stream, initial): (&Stream, &Initial)) {
        if code != FLOW_CONTROL_ERROR {
            return;
        }
        self.granted_since(side, stream, initial);
        for note in self.waiting(side) {
            if note.reset.map_or(true, |before| stream.order < before.0) {
                note.reset = Some((stream.order, stream.number, at));
            }
        }
    }

    /// The other side may have sent its last, unacknowledged SETTINGS before grants that make the credit too high.
    fn granted_since(&mut self, side: usize, stream: &Stream, initial: &Initial) {
        let announcing = 1 - side;
        let waiting = self.last[announcing].filter(|one| one.0 >= self.answered[announcing]);
        let highest = stream.sides[side].window.value(initial);
        if let (Some((index, at, value)), Some(highest)) = (waiting, highest) {
            let credit = highest + i64::from(value) - initial.value;
            let is_known = self.notes.iter().any(|note| (note.side, note.index) == (announcing, index));
            if credit > MOST_CREDIT && !is_known && self.notes.len() < MOST_LOOKS as usize {
                let (side, stream) = (announcing, stream.number);
                let (acknowledged, goaway, reset) = (None, None, None);
                self.notes.push(Note { side, index, at, acknowledged, value, highest, credit, stream, goaway, reset });
            }
        }
    }

    /// Among those that were acknowledged, these that FLOW_CONTROL_ERROR answered, unless the report has a finding.
    pub fn said(&self, has_finding: bool) -> Vec<String> {
        let is_told = |note: &&Note| note.index >= self.acknowledged[note.side] || note.is_answered() && !has_finding;
        self.notes.iter().filter(is_told).map(Note::text).collect()
    }
}

impl Note {
    fn is_answered(&self) -> bool {
        self.reset.is_some() || self.goaway.map_or(false, |(_, code)| code == FLOW_CONTROL_ERROR)
    }

    fn text(&self) -> String {
        let (side, other) = (side_of(self.side), side_of(1 - self.side));
        let (packet, value) = (self.at.packet, grouped(self.value));
        let (highest, credit) = (grouped(self.highest), grouped(self.credit));
        let how = match self.acknowledged {
            Some(at) => format!("acknowledged them in packet {}", at.packet),
            None => "never acknowledged them".to_string(),
        };
        let said = format!(
            "the {side}'s SETTINGS in packet {packet} set an initial window of {value}, which would take the {other}'s \
             credit on stream {} from {highest} to {credit}, above 2^31 - 1 (RFC 9113, 6.9.2); the {other} {how}",
            self.stream
        );
        said + &self.answer()
    }

    /// What the other side said after such settings.
    fn answer(&self) -> String {
        match (self.goaway, self.reset) {
            (Some((at, code)), reset) if reset.is_none() || self.acknowledged.is_none() => {
                format!(", and answered by GOAWAY {} in packet {}", code_name(code), at.packet)
            }
            (_, Some((_, stream, at))) => {
                format!(", and answered by RST_STREAM FLOW_CONTROL_ERROR on stream {stream} in packet {}", at.packet)
            }
            (_, None) => String::new(),
        }
    }
}

#[cfg(test)]
mod tests {
    use super::*;
    use cutter::Numbers;
    use std::rc::Rc;

    fn at(frame: u32) -> At {
        At { packet: u64::from(frame) * 10, time: 0, frame }
    }

    fn stream(number: u32) -> Stream {
        let mut stream = Stream::new(number, number, at(1), false);
        stream.sides[1].window.open(&Initial::default());
        stream
    }

    #[test]
    fn settings_that_would_take_a_window_too_high() {
        let mut table = Table::new(0, Numbers::new(), Rc::default());
        for number in [1, 3] {
            table.open(number, |_| stream(number));
        }
        let mut unanswered = Unanswered::new(vec![5, 6], [1, 0]);
        let most = [None, Some(MOST_CREDIT as u32), None];
        unanswered.sent(0, at(4), &[None, Some(1000), None], (&table, &Initial::default()));
        unanswered.sent(0, at(5), &[None, Some(2000), None], (&table, &Initial::default()));
        unanswered.sent(0, at(6), &most, (&table, &Initial::default()));
        let front = "the client's SETTINGS in packet 60 set an initial window of 2,147,483,647, which would take the \
                     server's credit on stream 1 from 65,535 to 2,147,548,182, above 2^31 - 1 (RFC 9113, 6.9.2); the \
                     server never acknowledged them";
        assert_eq!(unanswered.said(false), [front]);
        unanswered.reset(1, at(8), FLOW_CONTROL_ERROR, (&stream(3), &Initial::default()));
        let reset = format!("{front}, and answered by RST_STREAM FLOW_CONTROL_ERROR on stream 3 in packet 80");
        assert_eq!(unanswered.said(false), [reset]);
        unanswered.goaway(0, at(9), 0);
        unanswered.goaway(1, at(10), 3);
        assert_eq!(
            unanswered.said(true),
            [format!("{front}, and answered by GOAWAY FLOW_CONTROL_ERROR in packet 100")]
        );
    }

    #[test]
    fn settings_that_were_acknowledged_and_then_answered() {
        let mut table = Table::new(0, Numbers::new(), Rc::default());
        table.open(1, |_| stream(1));
        let mut unanswered = Unanswered::new(Vec::new(), [2, 0]);
        let (initial, most) = (Initial::default(), MOST_CREDIT as u32);
        table.touch(1, |one| one.sides[1].window.grant(&initial, 1000));
        unanswered.sent(0, at(4), &[None, Some(most - 1000), None], (&table, &initial));
        unanswered.sent(0, at(5), &[None, Some(most - 999), None], (&table, &initial));
        unanswered.acknowledged(1, at(6));
        unanswered.acknowledged(1, at(7));
        unanswered.goaway(1, at(7), 0);
        assert!(unanswered.said(false).is_empty(), "no error");
        unanswered.reset(1, at(8), FLOW_CONTROL_ERROR, (&stream(1), &Initial::default()));
        let said = "the client's SETTINGS in packet 50 set an initial window of 2,147,482,648, which would take the \
                    server's credit on stream 1 from 66,535 to 2,147,483,648, above 2^31 - 1 (RFC 9113, 6.9.2); the \
                    server acknowledged them in packet 70, and answered by RST_STREAM FLOW_CONTROL_ERROR on stream 1 \
                    in packet 80";
        assert_eq!(unanswered.said(false), [said]);
        assert!(unanswered.said(true).is_empty());
    }

    #[test]
    fn not_all_settings_are_looked_at() {
        let mut table = Table::new(0, Numbers::new(), Rc::default());
        table.open(1, |_| stream(1));
        let mut unanswered = Unanswered::new(Vec::new(), [2 * MOST_LOOKS, 0]);
        let mut initial = Initial::default();
        initial.change(0);
        table.touch(1, |one| one.sides[1].window.grant(&initial, 1000));
        for value in MOST_CREDIT as u32 - 2 * MOST_LOOKS..MOST_CREDIT as u32 {
            unanswered.sent(0, at(1), &[None, Some(value), None], (&table, &initial));
        }
        assert_eq!(unanswered.notes.len(), MOST_LOOKS as usize);
    }
}
