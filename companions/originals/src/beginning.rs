//! Takes what was made up off the report of a connection of which something is inferred (docs/WHY.md, 13): numbers of
//! its frames and bytes are those of what was captured, and what is not claimed goes.

use std::collections::HashSet;

use joined::{claimed, sure_of, Inferred};
use reports::{Finding, Flow, Stall};

/// What was made up of a connection.
#[derive(Debug)]
pub struct Beginning {
    pub inferred: Inferred,
    /// Bytes of each side.
    pub bytes: [u64; 2],
    /// What the map says of it.
    pub lines: Vec<String>,
}

/// Takes the lines of one connection.
#[derive(Default)]
pub struct Behind {
    /// Stalls that are claimed, by side, stream and the frame of their begin as the report has it.
    claimed: HashSet<(usize, u64, u64)>,
    /// The windows, by side and stream, of claimed stalls that go on.
    open: HashSet<(usize, u64)>,
    /// Whether bytes of a side are missing.
    pub has_gap: bool,
}

/// A block of fields that began before the capture may seem to be broken.
const BROKEN_BLOCK: &str = "broken-block";

impl Beginning {
    /// How many frames were made up.
    pub fn frames(&self) -> u64 {
        self.inferred.made.iter().map(|count| u64::from(*count)).sum()
    }

    /// A flow, without what was made up.
    pub fn flow(&self, flow: &Flow) -> Flow {
        let made = self.bytes[flow.side as usize];
        let gap = flow.gap.map(|offset| offset.saturating_sub(made));
        Flow { bytes: flow.bytes.saturating_sub(made), gap, ..flow.clone() }
    }
}

/// What a finding is in a report of the original.
#[derive(Clone, Copy, Debug, PartialEq, Eq)]
pub enum Claim {
    /// It is not claimed.
    Nothing,
    /// It is no fault, or one that rests on what is inferred.
    Shown,
    /// A fault that is certain.
    Fault,
}

impl Behind {
    /// Takes a finding, and answers what of it is shown.
    pub fn finding(&mut self, beginning: &Beginning, found: &Finding, is_fault: bool) -> Claim {
        let (side, kind) = (found.side as usize, found.kind.name());
        let window = (side, found.stream);
        let is_real = found.frame > beginning.frames();
        match (kind.ends_with("-stall-begin"), kind.ends_with("-stall-end")) {
            (true, _) => {
                let is_claimed = beginning.is_sure(window, found.time);
                if is_claimed {
                    self.open.insert(window);
                    self.claimed.insert((side, found.stream, found.frame));
                }
                shown(is_claimed && is_real)
            }
            (_, true) => shown(self.open.remove(&window) && is_real),
            _ if !is_fault => shown(is_real),
            _ if !is_real || beginning.inferred.is_doubtful || kind == BROKEN_BLOCK => Claim::Nothing,
            _ => match claimed(&beginning.inferred, kind, window, found.time) {
                None => Claim::Nothing,
                // Missing bytes may be its reason too.
                Some(true) if self.has_gap => Claim::Nothing,
                Some(true) => Claim::Shown,
                Some(false) => Claim::Fault,
            },
        }
    }

    /// A stall as it is shown: its frames are those that were captured, and 0 is before them.
    pub fn stall(&self, beginning: &Beginning, stall: &Stall) -> Option<Stall> {
        let made = beginning.frames();
        let is_over = stall.end.map_or(false, |(frame, _)| frame <= made);
        let is_claimed = self.claimed.contains(&(stall.side as usize, stall.stream, stall.begin));
        let end = stall.end.map(|(frame, nanos)| (frame.saturating_sub(made), nanos));
        (is_claimed && !is_over).then(|| Stall { begin: stall.begin.saturating_sub(made), end, ..*stall })
    }
}

impl Beginning {
    /// Whether a stall that began at this time is claimed.
    fn is_sure(&self, (side, stream): (usize, u64), time: u64) -> bool {
        let (stream, time) = (u32::try_from(stream).unwrap_or(0), i64::try_from(time).unwrap_or(0));
        !self.inferred.is_doubtful && sure_of(&self.inferred, side, stream, time).is_some()
    }
}

fn shown(is_shown: bool) -> Claim {
    match is_shown {
        true => Claim::Shown,
        false => Claim::Nothing,
    }
}
