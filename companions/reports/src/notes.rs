//! Findings with what a reader is told of them: of a stall, its other end.

use std::collections::HashMap;

use crate::kinds::Side;
use crate::lines::Finding;
use crate::numbers::duration;
use crate::sentences::sentence_of;

/// A finding, the packet that it is about, and for a stall which note is its other end.
#[derive(Debug, Clone)]
pub struct Note {
    pub packet: u64,
    /// The number of the file that has the packet, where it is not the one that is read.
    pub file: Option<u64>,
    pub finding: Finding,
    pub other: Option<usize>,
}

/// Makes the notes of one connection after the other, and joins the two ends of each stall.
#[derive(Default)]
pub struct Pairing {
    begun: HashMap<(Side, u64), usize>,
}

impl Pairing {
    /// A connection begins.
    pub fn begin(&mut self) {
        self.begun.clear();
    }

    /// Adds a note for a finding to those that are there.
    pub fn note(&mut self, finding: Finding, notes: &mut Vec<Note>) {
        let number = notes.len();
        let begin = if finding.kind.is_stall_begin() {
            self.begun.insert(finding.window(), number);
            None
        } else if finding.kind.is_stall_end() {
            self.begun.remove(&finding.window())
        } else {
            None
        };
        if let Some(begin) = begin {
            notes[begin].other = Some(number);
        }
        notes.push(Note { packet: finding.record, file: None, finding, other: begin });
    }
}

impl Note {
    /// What the finding tells, how long its stall took, what else is known of it, and who is to blame. `place` names
    /// the packet of a note.
    pub fn sentence(&self, other: Option<&Note>, place: impl Fn(&Note) -> String, more: &str) -> String {
        sentence_of(&self.finding, &(self.other_end(other, place) + more))
    }

    /// Where a stall ended or began, and how long it took.
    fn other_end(&self, other: Option<&Note>, place: impl Fn(&Note) -> String) -> String {
        let is_begin = self.finding.kind.is_stall_begin();
        let other = match other {
            Some(other) => other,
            None if is_begin => return ", and no end of the stall was seen".to_string(),
            None => return String::new(),
        };
        let nanos = i128::from(other.finding.time) - i128::from(self.finding.time);
        if is_begin {
            format!(", and waited {}, up to {}", duration(nanos), place(other))
        } else if self.finding.kind.is_stall_end() {
            format!(", {} after {}", duration(-nanos), place(other))
        } else {
            String::new()
        }
    }
}
