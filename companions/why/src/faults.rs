//! Faults as they are told: each one that is certain, and those that can be doubted once for a stream (docs/WHY.md, 6).

use std::collections::HashMap;

use explain::answer::{ConnectionSaid, FaultSaid};
use reports::{grouped, sentence_of};

/// A fault, and how often the stream has it, where it can be doubted.
pub struct ToldFault<'a> {
    pub fault: &'a FaultSaid,
    pub times: u64,
}

/// The faults of a connection, each with the first of its like.
pub fn told(said: &ConnectionSaid) -> Vec<ToldFault<'_>> {
    let mut told: Vec<ToldFault<'_>> = Vec::new();
    let mut places = HashMap::<_, usize>::new();
    for fault in &said.faults {
        let finding = &fault.finding;
        let of = (finding.kind.name(), finding.side, finding.stream, fault.certainty as u8);
        match places.get(&of) {
            Some(place) if fault.is_doubtful() => told[*place].times += 1,
            _ => {
                places.insert(of, told.len());
                told.push(ToldFault { fault, times: 1 });
            }
        }
    }
    told
}

impl ToldFault<'_> {
    /// What happened, and in which packet, or in which first.
    pub fn sentence(&self, packet: &str) -> String {
        let (finding, frame) = (&self.fault.finding, self.fault.at.frame);
        let of = if finding.stream == 0 { "the connection" } else { "this stream" };
        let (more, first) = match self.times {
            1 => (String::new(), ""),
            times => (format!(", {} times on {of}", grouped(times)), "first in "),
        };
        format!("{}; {first}{packet}, frame {frame}", sentence_of(finding, &more))
    }
}
