//! The secrets that a search tries, and what it finds.

use std::ops::Range;

use super::MOST_UPDATES;
use crate::handshake::Stage;
use crate::hellos::Random;
use crate::key_log::{Keys, Label, OF_SIDES};
use crate::key_schedule::{next_secret, traffic_keys, TrafficKeys};
use crate::suites::{suites_of_secret, Suite};
use crate::{CLIENT, SERVER};

/// What opens a record.
#[derive(Clone)]
pub struct FoundSecret {
    /// Which of the two samples it opens.
    pub side: usize,
    /// The side whose secret it is.
    pub role: usize,
    pub random: Random,
    pub suite: Suite,
    pub stage: Stage,
    /// How many key updates came before it.
    pub updates: u32,
    pub secret: Vec<u8>,
    pub number: u64,
}

/// What is known before a search.
pub enum Given<'a> {
    Nothing,
    /// What opens the other side.
    Other(&'a FoundSecret),
    /// What opens a later record of the side, behind a key update.
    Later(&'a FoundSecret),
    /// What opened the next record of each side, or of one, before some were lost.
    Before(&'a [FoundSecret]),
}

impl Given<'_> {
    pub fn has(&self, random: &Random, role: usize) -> bool {
        match self {
            Given::Nothing => true,
            Given::Other(found) => found.random == *random && found.role != role,
            Given::Later(found) => found.random == *random && found.role == role,
            Given::Before(_) => false,
        }
    }

    fn has_suite(&self, suite: &Suite) -> bool {
        match self {
            Given::Other(found) | Given::Later(found) => found.suite.code == suite.code,
            Given::Nothing | Given::Before(_) => true,
        }
    }

    /// How many updates are tried.
    pub fn updates(&self) -> Range<u32> {
        match self {
            Given::Later(found) => found.updates.saturating_sub(1)..found.updates,
            _ => 0..MOST_UPDATES + 1,
        }
    }
}

/// A secret, and the keys that it gives for some suites.
pub struct Entry {
    pub random: Random,
    pub role: usize,
    pub stage: Stage,
    pub suites: Vec<Suite>,
    pub secret: Vec<u8>,
    pub keys: TrafficKeys,
    pub updates: u32,
    /// The first number that is tried.
    pub from: u64,
    /// Where only one side may have it.
    pub side: Option<usize>,
}

impl Entry {
    fn of(found: &FoundSecret) -> Entry {
        let FoundSecret { random, role, stage, suite, updates, number, side, .. } = *found;
        let (secret, keys) = (found.secret.clone(), traffic_keys(&suite, &found.secret));
        Entry { random, role, stage, suites: vec![suite], secret, keys, updates, from: number, side: Some(side) }
    }

    pub fn may_be_of(&self, side: usize) -> bool {
        self.side.map_or(true, |of| of == side)
    }

    /// Goes on to the secret after a key update.
    pub fn update(&mut self) {
        self.secret = next_secret(&self.suites[0], &self.secret);
        self.keys = traffic_keys(&self.suites[0], &self.secret);
        self.updates += 1;
        self.from = 0;
    }

    /// Says that this secret opens the record of this number.
    pub fn found(&self, side: usize, suite: Suite, number: u64) -> FoundSecret {
        let Entry { random, role, stage, updates, .. } = *self;
        FoundSecret { side, role, random, suite, stage, updates, secret: self.secret.clone(), number }
    }
}

/// The secrets that may have protected a record, each with the keys of one length.
pub fn entries_of(keys: &Keys, given: &Given<'_>) -> Vec<Entry> {
    let mut entries = Vec::new();
    if let Given::Before(found) = given {
        entries.extend(found.iter().map(Entry::of));
        if let [found] = found {
            let side = Some(1 - found.side);
            entries.extend(entries_of(keys, &Given::Other(found)).into_iter().map(|entry| Entry { side, ..entry }));
        }
        return entries;
    }
    for (random, label, secret) in keys.with(&OF_SIDES.concat()) {
        let role = if OF_SIDES[CLIENT].contains(&label) { CLIENT } else { SERVER };
        if !given.has(random, role) {
            continue;
        }
        let is_handshake = matches!(label, Label::ClientHandshake | Label::ServerHandshake);
        let stage = if is_handshake { Stage::Handshake } else { Stage::Traffic };
        let suites: Vec<Suite> = suites_of_secret(secret.len()).filter(|suite| given.has_suite(suite)).collect();
        for suites in by_keys(&suites) {
            let (secret, keys) = (secret.to_vec(), traffic_keys(&suites[0], secret));
            entries.push(Entry { random: *random, role, stage, suites, secret, keys, updates: 0, from: 0, side: None });
        }
    }
    entries
}

/// Suites of one hash, by the length of their keys, which is all that keys depend on.
fn by_keys(suites: &[Suite]) -> Vec<Vec<Suite>> {
    let of_length = |length| suites.iter().filter(|suite| suite.key_length == length).copied().collect();
    [16, 32].into_iter().map(of_length).filter(|some: &Vec<Suite>| !some.is_empty()).collect()
}
