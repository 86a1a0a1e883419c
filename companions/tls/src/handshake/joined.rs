//! What was found of a connection whose hellos were not seen.

use super::{Half, Handshake, Stage};
use crate::reason::Reason;
use crate::search::FoundSecret;
use crate::TLS_1_3;

impl Handshake {
    /// Whether it goes on with what was found without the hellos.
    pub fn is_joined(&self) -> bool {
        self.joined.is_some()
    }

    /// Whether a side is the client's or the server's; and the side of each.
    pub fn role(&self, side: usize) -> usize {
        side ^ usize::from(self.is_swapped)
    }

    /// Goes on with a side of TLS 1.3 from a record on, by what was found to open it.
    pub(crate) fn go_on(&mut self, side: usize, found: FoundSecret) -> Result<(), Reason> {
        (self.version, self.suite, self.joined) = (Some(TLS_1_3), Some(found.suite), Some(found.random));
        self.is_swapped = found.role != side;
        (self.halves[side].stage, self.halves[side].updates) = (found.stage, found.updates);
        self.protect(side, found.secret)?;
        self.halves[side].opener.iter_mut().for_each(|opener| opener.go_to(found.number));
        Ok(())
    }

    /// What opens the next record of a side of TLS 1.3, once its application data has begun.
    pub(crate) fn opens(&self, side: usize) -> Option<FoundSecret> {
        let Half { stage, updates, .. } = self.halves[side];
        let (random, suite) = (self.client_random()?, self.suite?);
        let number = self.halves[side].opener.as_ref()?.number();
        let secret = self.halves[side].secret.clone();
        let role = self.role(side);
        let is_of_traffic = self.version == Some(TLS_1_3) && stage == Stage::Traffic;
        is_of_traffic.then_some(FoundSecret { side, role, random, suite, stage, updates, secret, number })
    }

    /// What opens some record of such a side that was read: the first one, of the earliest secret that is remembered.
    pub(crate) fn opened_from(&self, side: usize) -> Option<FoundSecret> {
        let found = self.opens(side)?;
        let earlier = &self.halves[side].earlier;
        let secret = earlier.front().cloned().unwrap_or(found.secret);
        Some(FoundSecret { secret, updates: found.updates.saturating_sub(earlier.len() as u32), number: 0, ..found })
    }
}
