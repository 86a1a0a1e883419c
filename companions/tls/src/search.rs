//! Finds the secret and the number of records of TLS 1.3 whose hellos were not seen.
//!
//! A traffic secret alone gives key and IV (RFC 8446, 7.3), and its length tells the hash of the suite. So each secret
//! of the key log is tried with each record number, the lower numbers of all secrets first, and then those after key
//! updates. A tag leaves no doubt. How far this goes is bounded by numbers, and by time over all connections.

use std::ops::Range;
use std::time::{Duration, Instant};

use crate::filter::{Bench, Filter, MOST_AT_ONCE};
use crate::handshake::Stage;
use crate::key_log::Keys;
use crate::protection::Opener;
use crate::reason::Reason;
use crate::sample::{Sample, Sealed};
use crate::suites::{Mode, Suite};
use entries::{entries_of, Entry};

mod entries;
#[cfg(test)]
mod tests;

pub use entries::{FoundSecret, Given};

const MOST_NUMBERS: u64 = 1 << 20;
const MOST_SECONDS: u64 = 60;
/// So many key updates before what was captured are tried.
pub const MOST_UPDATES: u32 = 4;
/// One search takes this part of the time that is left, so that connections without keys leave some to others.
const SHARE: u32 = 4;
/// So many numbers of all secrets are tried first; of secrets of handshakes there are no more.
const FIRST_NUMBERS: u64 = 1 << 9;
/// GCM is by far the most frequent, and faster to try than ChaCha20: its numbers are this many doublings ahead.
const LAG: usize = 3;

/// How far is searched, and how much time that took by now.
pub struct Search {
    /// Records of higher numbers, counted from the last key update before them, are not found.
    pub numbers: u64,
    /// For all connections, of which each takes a quarter of what is left at most.
    pub seconds: u64,
    spent: Duration,
}

impl Default for Search {
    fn default() -> Search {
        Search::new(MOST_NUMBERS, MOST_SECONDS)
    }
}

impl Search {
    /// A search of record numbers below this one, for so many seconds in all.
    pub fn new(numbers: u64, seconds: u64) -> Search {
        Search { numbers, seconds, spent: Duration::default() }
    }

    /// What opens a record of one of two sides.
    pub fn find(
        &mut self,
        keys: &Keys,
        samples: &[Option<Sample<'_>>; 2],
        given: &Given<'_>,
    ) -> Result<FoundSecret, Reason> {
        let begun = Instant::now();
        let left = Duration::from_secs(self.seconds).saturating_sub(self.spent) / SHARE;
        let (numbers, seconds) = (self.numbers, self.seconds);
        if left.is_zero() {
            return Err(Reason::SearchedSeconds(seconds));
        }
        let found = match Bench::new() {
            Ok(bench) => Attempt { bench, room: Vec::new(), samples, begun, left, numbers, seconds }.find(keys, given),
            Err(_) => Err(Reason::NoKey),
        };
        self.spent += begun.elapsed();
        found
    }
}

/// All numbers, in ranges of which each has as many as all before it.
fn waves(numbers: u64) -> Vec<Range<u64>> {
    let mut waves = Vec::new();
    let (mut from, mut to) = (0, FIRST_NUMBERS.min(numbers));
    while from < to {
        waves.push(from..to);
        (from, to) = (to, to.saturating_mul(2).min(numbers));
    }
    waves
}

/// One search.
struct Attempt<'a> {
    bench: Bench,
    room: Vec<u8>,
    samples: &'a [Option<Sample<'a>>; 2],
    begun: Instant,
    left: Duration,
    numbers: u64,
    seconds: u64,
}

impl Attempt<'_> {
    fn find(&mut self, keys: &Keys, given: &Given<'_>) -> Result<FoundSecret, Reason> {
        let mut entries = entries_of(keys, given);
        if entries.is_empty() {
            return Err(Reason::NoKey);
        }
        for updates in 0..given.updates().end {
            if updates > 0 {
                entries.retain(|entry| entry.stage == Stage::Traffic);
                entries.iter_mut().for_each(Entry::update);
            }
            if given.updates().contains(&updates) {
                if let Some(found) = self.find_among(&entries)? {
                    return Ok(found);
                }
            }
        }
        Err(Reason::SearchedNumbers(self.numbers))
    }

    fn find_among(&mut self, entries: &[Entry]) -> Result<Option<FoundSecret>, Reason> {
        let waves = waves(self.numbers);
        for turn in 0..waves.len() + LAG {
            for (entry, suite) in entries.iter().flat_map(|entry| entry.suites.iter().map(move |suite| (entry, suite)))
            {
                let lag = if suite.mode == Mode::Gcm { 0 } else { LAG };
                let wave = turn.checked_sub(lag).and_then(|place| waves.get(place));
                let wave = wave.filter(|wave| entry.stage == Stage::Traffic || wave.start == 0);
                if let Some(wave) = wave {
                    if let Some(found) = self.find_by(entry, suite, wave.clone())? {
                        return Ok(Some(found));
                    }
                }
            }
        }
        Ok(None)
    }

    fn find_by(&mut self, entry: &Entry, suite: &Suite, numbers: Range<u64>) -> Result<Option<FoundSecret>, Reason> {
        let first = |number: u64| entry.from.saturating_add(number);
        for (side, sample) in self.samples.iter().enumerate().filter(|(side, _)| entry.may_be_of(*side)) {
            let tried = match sample {
                None => continue,
                Some(sample) if entry.stage == Stage::Traffic => (sample.record, sample.beside),
                Some(sample) => (sample.first, None),
            };
            if let Some(number) = self.number(entry, suite, tried, first(numbers.start)..first(numbers.end))? {
                return Ok(Some(entry.found(side, *suite, number)));
            }
        }
        Ok(None)
    }

    /// The number with which a record opens.
    fn number(
        &mut self,
        entry: &Entry,
        suite: &Suite,
        (record, beside): (Sealed<'_>, Option<(Sealed<'_>, u64)>),
        numbers: Range<u64>,
    ) -> Result<Option<u64>, Reason> {
        let bodies = [Some((record.body, 0)), beside.map(|(beside, ahead)| (beside.body, ahead))];
        let bodies: Vec<_> = bodies.into_iter().flatten().collect();
        let filter = match Filter::new(suite, &bodies) {
            None => return Ok(None),
            Some(filter) => filter,
        };
        let mut opener = None;
        for from in numbers.clone().step_by(MOST_AT_ONCE) {
            if self.begun.elapsed() >= self.left {
                return Err(Reason::SearchedSeconds(self.seconds));
            }
            self.bench.numbers.clear();
            self.bench.numbers.extend(from..numbers.end.min(from.saturating_add(MOST_AT_ONCE as u64)));
            filter.keep(&mut self.bench, &entry.keys).map_err(|_| Reason::CipherSuite(suite.code))?;
            if let Some(number) = self.proved(entry, suite, record, &mut opener) {
                return Ok(Some(number));
            }
        }
        Ok(None)
    }

    /// The number of those that passed with which a record proves its tag.
    fn proved(&mut self, entry: &Entry, suite: &Suite, record: Sealed<'_>, opener: &mut Option<Opener>) -> Option<u64> {
        for number in &self.bench.numbers {
            if opener.is_none() {
                *opener = Opener::tls_1_3(suite, &entry.keys).ok();
            }
            let opener = opener.as_mut()?;
            opener.go_to(*number);
            if opener.open(&record.header, record.body, &mut self.room).is_ok() {
                return Some(*number);
            }
        }
        None
    }
}
