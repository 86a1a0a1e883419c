//! What the report says of a connection, beside the walk over its frames: each finding stands at the frame that it
//! names, and the credits that it tells are those that the walk counts.

use std::collections::HashMap;

use programs::Failure;
use reports::Finding;

use crate::answer::{At, FaultSaid, StallSaid};
use crate::audit::{broken, StallAt, Stalled};
use crate::certainty::{certainty_of, set_by, windows_of, Grants};
use crate::joining::sure_of;
use crate::learning::Known;
use crate::seen::{About, Key};
use crate::settings::Settings;
use crate::stalls::{end_by, ended_by, stall_said};
use crate::tcp::at_of;

/// What the report says, of which some lies ahead.
#[derive(Debug)]
pub struct Findings {
    faults: std::iter::Peekable<std::vec::IntoIter<Finding>>,
    /// Ends of stalls in the order of their frames, the last first.
    ends: Vec<End>,
    pub stalls: Vec<StallSaid>,
    pub said: Vec<FaultSaid>,
    /// Grants of the windows that faults are about.
    pub grants: HashMap<Key, Grants>,
    /// The frame at which the next finding stands; past all frames where there is none.
    next: u64,
}

#[derive(Clone, Copy, Debug)]
struct End {
    stall: usize,
    is_begin: bool,
    at: StallAt,
}

/// A frame at which findings may stand.
pub struct Here<'a> {
    pub at: At,
    pub record: u64,
    pub kind: u8,
    /// Whether it is its side's first.
    pub is_first: bool,
    /// The credit that a grant of it would have made, where that is too high.
    pub overflow: Option<i64>,
    pub known: &'a Known,
    pub about: &'a About,
    pub settings: &'a Settings,
}

impl Findings {
    pub fn new(faults: Vec<Finding>, stalls: &[Stalled], about: &About) -> Findings {
        let said = |one: &Stalled| {
            let inferred = about.inferred.as_ref();
            let sure = inferred.and_then(|inferred| sure_of(inferred, one.side, one.stream, one.begin.time));
            StallSaid { sure, ..stall_said(one, &about.tcp, about.unseen, &about.round_trip) }
        };
        let begins = stalls.iter().enumerate().map(|(stall, one)| End { stall, is_begin: true, at: one.begin });
        let ends = stalls.iter().enumerate().filter_map(|(stall, one)| {
            let at = one.end?;
            Some(End { stall, is_begin: false, at })
        });
        let mut ends: Vec<End> = begins.chain(ends).collect();
        ends.sort_by_key(|end| std::cmp::Reverse(end.at.frame));
        let mut findings = Findings {
            grants: windows_of(&faults),
            faults: faults.into_iter().peekable(),
            ends,
            stalls: stalls.iter().map(said).collect(),
            said: Vec::new(),
            next: 0,
        };
        findings.look_ahead();
        findings
    }

    /// Whether a finding stands at this frame.
    #[inline]
    pub fn stands_at(&self, frame: u32) -> bool {
        self.next <= u64::from(frame)
    }

    fn look_ahead(&mut self) {
        let end = self.ends.last().map_or(u64::MAX, |end| u64::from(end.at.frame));
        self.next = self.faults.peek().map_or(u64::MAX, |fault| fault.frame).min(end);
    }

    /// Takes the findings at a frame, of which everything has its effect, by the credits of windows.
    pub fn take(&mut self, here: &Here<'_>, credit: impl Fn(Key) -> Option<i64>) -> Result<(), Failure> {
        while let Some(end) = self.ends.last().copied().filter(|end| end.at.frame <= here.at.frame) {
            self.ends.pop();
            self.stall(here, end, &credit)?;
        }
        let frame = u64::from(here.at.frame);
        while let Some(fault) = self.faults.next_if(|fault| fault.frame <= frame) {
            self.fault(here, fault, &credit)?;
        }
        self.look_ahead();
        Ok(())
    }

    fn stall(&mut self, here: &Here<'_>, end: End, credit: &impl Fn(Key) -> Option<i64>) -> Result<(), Failure> {
        let said = match self.stalls.get_mut(end.stall) {
            Some(said) => said,
            None => return Ok(()),
        };
        let StallAt { frame, record, time, credit: told } = end.at;
        if frame == 0 {
            // It goes on since before the capture, or since the frame that the cut divides.
            let divided = here.about.inferred.as_ref().and_then(|inferred| inferred.divided[said.side as usize]);
            said.begin = divided.map_or(here.about.opened, at_of);
            return Ok(());
        }
        if (frame, record, time) != (here.at.frame, here.record, here.at.time) {
            return Err(broken("its frames are others"));
        }
        if credit((said.side as usize, said.stream)) != Some(told) {
            return Err(broken("its credits are others"));
        }
        if end.is_begin {
            said.begin = here.at;
        } else {
            said.end = Some(here.at);
            end_by(said, ended_by(here.kind), &here.about.tcp, &here.about.round_trip);
        }
        Ok(())
    }

    fn fault(&mut self, here: &Here<'_>, fault: Finding, credit: &impl Fn(Key) -> Option<i64>) -> Result<(), Failure> {
        let time = u64::try_from(here.at.time).unwrap_or(u64::MAX);
        if (fault.frame, fault.record, fault.time) != (u64::from(here.at.frame), here.record, time) {
            return Err(broken("its frames are others"));
        }
        let window = (fault.side as usize, u32::try_from(fault.stream).unwrap_or(u32::MAX));
        let told = match fault.kind.name() {
            "connection-overrun" | "stream-overrun" => credit(window),
            "stream-overflow" => here.overflow,
            _ => Some(fault.value),
        };
        if told != Some(fault.value) {
            return Err(broken("its credits are others"));
        }
        let is_within = here.is_first && fault.kind.name() == "broken-block" && here.about.inferred.is_some();
        if is_within {
            // The block may have begun before the capture.
            return Ok(());
        }
        let (certainty, doubt) = certainty_of(&fault, here.known, here.settings, here.about.inferred.as_deref());
        let (set_by, set_text) = set_by(&fault, here.settings, &self.grants);
        self.said.push(FaultSaid { finding: fault, at: here.at, certainty, doubt, set_by, set_text });
        Ok(())
    }

    /// Whether all findings stood at frames that are there.
    pub fn is_done(&mut self) -> bool {
        self.ends.is_empty() && self.faults.peek().is_none()
    }
}
