//! What waits of a connection that is read from its middle on, of each side until it is known what opens its records.
//!
//! The sides wait together until a secret of one is found, so that plaintext keeps its order. From then on the other
//! one waits for its first whole record alone, which is tried at once by the secrets of that connection.

use std::ops::Range;

use captures::Arrival;

use crate::borders::Borders;
use crate::connection::Shared;
use crate::handshake::Stage;
use crate::reason::Reason;
use crate::sample::{is_tls_1_2, sealed_in, Sample, Sealed};
use crate::search::{FoundSecret, Given};
use crate::{CLIENT, SERVER};

/// So much of a side waits at most, its segments' places counted too.
const MOST_WAITING: usize = 1 << 20;
const COST_OF_A_SEGMENT: usize = 32;
/// Secrets of all connections are tried once so many records of a side follow each other.
const ENOUGH_RECORDS: usize = 2;

struct Segment {
    side: usize,
    length: usize,
    arrival: Arrival,
}

/// The sides that wait.
pub struct Middle {
    borders: [Option<Borders>; 2],
    /// In the order in which they came.
    segments: Vec<Segment>,
    costs: [usize; 2],
    /// What is there is looked at again once it has so many bytes, where it was in vain.
    next_look: usize,
    /// What opened the sides before some of them was lost; nothing where nothing was read before.
    before: Vec<FoundSecret>,
    /// What opens the side that was found first.
    found: Option<FoundSecret>,
}

/// What became of a side that waited.
pub enum Settled {
    /// Its records are opened, from a place on.
    Opens(Box<FoundSecret>, usize),
    Ends(Reason),
    /// It had so many bytes, and no whole record.
    Skipped(usize),
}

/// What waited of sides that are opened: the bytes, whose they are, and when the first of each side came.
#[derive(Default)]
pub struct Released {
    pub bytes: [Vec<u8>; 2],
    pub segments: Vec<(usize, Range<usize>, Arrival)>,
    pub begun: [Option<Arrival>; 2],
}

impl Default for Middle {
    fn default() -> Middle {
        Middle {
            borders: [Some(Borders::default()), Some(Borders::default())],
            segments: Vec::new(),
            costs: [0; 2],
            next_look: 0,
            before: Vec::new(),
            found: None,
        }
    }
}

impl Middle {
    /// For sides whose next record these secrets opened, before some of them was lost.
    pub fn behind(before: Vec<FoundSecret>) -> Middle {
        Middle { before, ..Middle::default() }
    }

    /// What waits costs so many bytes.
    pub fn cost(&self) -> usize {
        self.costs.iter().sum()
    }

    pub fn waits(&self, side: usize) -> bool {
        self.borders[side].is_some()
    }

    pub fn add(&mut self, side: usize, data: &[u8], arrival: Arrival) {
        if let Some(borders) = &mut self.borders[side] {
            borders.add(data);
            self.costs[side] += data.len() + COST_OF_A_SEGMENT;
            self.segments.push(Segment { side, length: data.len(), arrival });
        }
    }

    fn waiting(&self) -> impl Iterator<Item = &Borders> {
        self.borders.iter().flatten()
    }

    fn length(&self) -> usize {
        self.waiting().map(|borders| borders.bytes().len()).sum()
    }

    /// Whether records follow each other in a side that waits, or did in one that is settled.
    pub fn has_records(&self) -> bool {
        let headers = |borders: &Borders| borders.best().map_or(0, |chain| chain.headers);
        self.found.is_some() || self.waiting().any(|borders| headers(borders) >= ENOUGH_RECORDS)
    }

    /// Whether it is time to look for what opens a side: there is enough of it to try, or too much to wait on.
    pub fn is_due(&self, more_keys: bool) -> bool {
        let has_one = || self.waiting().any(|borders| borders.best().is_some());
        let is_ripe = || if self.found.is_some() { has_one() } else { self.has_records() };
        let is_time = !more_keys && self.length() >= self.next_look;
        is_time && is_ripe() || [CLIENT, SERVER].iter().any(|side| self.is_over(*side))
    }

    /// Whether nothing is to be gained by waiting on.
    fn is_over(&self, side: usize) -> bool {
        let borders = &self.borders[side];
        borders.as_ref().map_or(false, |borders| self.costs[side] > MOST_WAITING || borders.is_hopeless())
    }

    /// Settles the sides that can be tried, and those that wait no longer.
    pub fn settle(&mut self, shared: &mut Shared, is_last: bool) -> [Option<Settled>; 2] {
        let records = [CLIENT, SERVER].map(|side| self.records(side));
        let is_known = self.found.is_some() || !self.before.is_empty();
        if !is_known && records.iter().any(|records| is_tls_1_2(records)) {
            return [(); 2].map(|()| Some(Settled::Ends(Reason::NoServerRandom)));
        }
        let ([client, server], found) = self.search(shared, &records, is_last);
        drop(records);
        self.next_look = if found.is_some() { 0 } else { 2 * self.length() };
        self.found = found;
        let given_up = |side| self.given_up(side, is_last);
        [client.or_else(|| given_up(CLIENT)), server.or_else(|| given_up(SERVER))]
    }

    /// What opens the sides that can be tried, and that of the first.
    fn search(
        &self,
        shared: &mut Shared,
        records: &[Vec<Sealed<'_>>; 2],
        is_last: bool,
    ) -> ([Option<Settled>; 2], Option<FoundSecret>) {
        let mut settled = [None, None];
        let mut samples = [CLIENT, SERVER].map(|side| Sample::of(&records[side]));
        let mut found = self.found.clone();
        loop {
            let tried = self.tried(&samples, found.is_some(), is_last);
            if tried.iter().all(Option::is_none) {
                return (settled, found);
            }
            let given = match &found {
                _ if !self.before.is_empty() => Given::Before(&self.before),
                Some(found) => Given::Other(found),
                None => Given::Nothing,
            };
            match shared.search.find(&shared.keys, &tried, &given) {
                Ok(opens) => {
                    let side = opens.side;
                    let sample = samples[side].take();
                    let (opens, place) = first_opened(shared, &records[side], sample.as_ref(), opens);
                    settled[side] = Some(Settled::Opens(Box::new(opens.clone()), self.begin(side) + place));
                    found.get_or_insert(opens);
                }
                Err(why) => {
                    for side in [CLIENT, SERVER].into_iter().filter(|side| tried[*side].is_some()) {
                        (samples[side], settled[side]) = (None, Some(Settled::Ends(why)));
                    }
                }
            }
        }
    }

    fn begin(&self, side: usize) -> usize {
        self.borders[side].as_ref().and_then(Borders::best).map_or(0, |chain| chain.begin)
    }

    fn records(&self, side: usize) -> Vec<Sealed<'_>> {
        match &self.borders[side] {
            Some(borders) if borders.best().is_some() => sealed_in(&borders.bytes()[self.begin(side)..]),
            _ => Vec::new(),
        }
    }

    /// Which samples are tried next. By the secrets of all connections those are tried that have a neighbour, which
    /// spares most tags; a record alone only where nothing more comes.
    fn tried<'a>(&self, samples: &[Option<Sample<'a>>; 2], is_found: bool, is_last: bool) -> [Option<Sample<'a>>; 2] {
        let pairs = samples.map(|sample| sample.filter(|sample| is_found || sample.beside.is_some()));
        if pairs.iter().any(Option::is_some) {
            return pairs;
        }
        [CLIENT, SERVER].map(|side| samples[side].filter(|_| is_last || self.is_over(side)))
    }

    /// What becomes of a side without a whole record, where no more is waited for.
    fn given_up(&self, side: usize, is_last: bool) -> Option<Settled> {
        let borders = self.borders[side].as_ref().filter(|_| is_last || self.is_over(side))?;
        let length = borders.bytes().len();
        Some(match (self.found.is_some(), borders.is_hopeless()) {
            (true, false) if is_last => Settled::Skipped(length),
            (false, false) if is_last => Settled::Ends(Reason::Tail(length)),
            _ => Settled::Ends(Reason::NotTls),
        })
    }

    /// Gives what waited of the sides that are settled.
    pub fn release(&mut self, settled: &[Option<Settled>; 2]) -> Released {
        let mut released = Released::default();
        let mut passed = [0; 2];
        for Segment { side, length, arrival } in std::mem::take(&mut self.segments) {
            let begin = passed[side];
            passed[side] += length;
            if settled[side].is_none() {
                self.segments.push(Segment { side, length, arrival });
                continue;
            }
            released.begun[side].get_or_insert(arrival);
            if let Some(Settled::Opens(_, skipped)) = &settled[side] {
                let place = begin.max(*skipped)..passed[side].max(*skipped);
                released.segments.push((side, place, arrival));
            }
        }
        for side in [CLIENT, SERVER].into_iter().filter(|side| settled[*side].is_some()) {
            released.bytes[side] = self.borders[side].take().map_or_else(Vec::new, Borders::into_bytes);
        }
        released
    }
}

/// What opens the first record of those that follow each other, by what opens one of them, and which one that is. A
/// number that is too small for the record's place shows a key update, and the records before it are looked for by the
/// secret before that; where these do not open, it begins behind the update.
fn first_opened(
    shared: &mut Shared,
    records: &[Sealed<'_>],
    sample: Option<&Sample<'_>>,
    found: FoundSecret,
) -> (FoundSecret, usize) {
    let (mut found, mut index) = (found, sample.map_or(0, |sample| sample.index));
    loop {
        if found.stage == Stage::Handshake {
            index = 0;
        }
        if let Some(number) = found.number.checked_sub(index) {
            return (FoundSecret { number, ..found }, 0);
        }
        let behind = (index - found.number) as usize;
        let mut samples = [None, None];
        samples[found.side] = Sample::of(&records[..behind]);
        let earlier = shared.search.find(&shared.keys, &samples, &Given::Later(&found));
        match (earlier, samples[found.side]) {
            (Ok(earlier), Some(sample)) => (found, index) = (earlier, sample.index),
            _ => {
                let before = records[..behind].iter().map(Sealed::length).sum();
                return (FoundSecret { number: 0, ..found }, before);
            }
        }
    }
}
