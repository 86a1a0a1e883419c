//! Which front requests each back request can have carried: those that were open as it was opened, most alike first.

use std::cmp::Reverse;
use std::collections::hash_map::{Entry, HashMap};
use std::collections::{BTreeSet, BinaryHeap};

use crate::answer::Nanos;
use crate::legs::course::{ByteCourse, SLACK};
use crate::legs::facts::{Facts, Request};
use crate::legs::hops::Hop;
use crate::legs::said::Likeness;
use cutter::Numbers;

/// If more front requests that are alike are open at once, none of them is told from the others.
pub const MOST_OPEN: usize = 100;
/// So much content tells a request from others whatever their names are.
const LEAST_CONTENT: u64 = 1000;

/// What a back request can have carried.
#[derive(Clone, Debug)]
pub struct Claim {
    pub back: usize,
    pub fronts: Vec<usize>,
    pub likeness: Likeness,
    /// Whether it answers one of them, and did not fail before.
    pub is_answer: bool,
    /// Whether there are too many.
    pub is_crowded: bool,
}

#[derive(Debug, Default)]
pub struct Candidates {
    pub claims: Vec<Claim>,
    /// Front requests that were open where there were too many that are alike.
    pub crowded: BTreeSet<usize>,
}

/// What front requests that are alike have in common: the listener, the method with the name, and what became of them.
type Key = (usize, u64, Fate);

/// What became of a request: of a whole one its status, and how much content.
type Fate = (u64, u64);
const ANY: Fate = (0, 0);
const BROKEN: Fate = (1, 0);

const NAMED: [Likeness; 3] = [Likeness::Path, Likeness::LastPart, Likeness::Content];

fn name_of(one: &Request, likeness: Likeness) -> u32 {
    match likeness {
        Likeness::Path => one.path,
        Likeness::LastPart => one.last,
        Likeness::Content | Likeness::Id => 0,
    }
}

fn fate_of(one: &Request) -> Fate {
    match one.is_whole() {
        true => (2 + one.status.map_or(0, |status| 1 + u64::from(status)), one.ways[1].content),
        false => BROKEN,
    }
}

fn key_of(listener: usize, one: &Request, name: u32, fate: Fate) -> Key {
    (listener, u64::from(one.method) << 32 | u64::from(name), fate)
}

/// Front requests, of which some have ended, and how many are open; and the last time at which these were too many.
#[derive(Default)]
struct Open {
    fronts: Vec<usize>,
    count: usize,
    crowded: Option<Nanos>,
}

/// Where so few have ended they are not taken away.
const FEW: usize = 16;

/// Front requests that are open, by what they have in common, if they are compared by one likeness.
#[derive(Default)]
struct Table {
    open: HashMap<Key, Open, Numbers>,
    /// Rooms of those that were, which others take.
    rooms: Vec<Vec<usize>>,
}

pub struct Search<'a> {
    facts: &'a Facts,
    /// The courses of both directions, by requests.
    courses: &'a [[ByteCourse; 2]],
    /// The front listeners of each listener.
    fronts_of: Vec<Vec<usize>>,
    /// A table for each likeness, from the first comparison by it on.
    open: [Option<Table>; NAMED.len()],
    ending: BinaryHeap<Reverse<(Nanos, usize)>>,
    /// Front requests by ids; none where two have the same.
    ids: HashMap<(usize, u64), Option<usize>, Numbers>,
    /// Whether some back request failed, so that it may have been a try.
    has_tries: bool,
    /// Whether some front request was not answered to its end; and by likenesses whether the name of one is unknown.
    has_broken: bool,
    has_nameless: [bool; NAMED.len()],
    found: Candidates,
}

impl<'a> Search<'a> {
    pub fn new(facts: &'a Facts, courses: &'a [[ByteCourse; 2]], hops: &[Hop]) -> Search<'a> {
        let mut fronts_of = vec![Vec::new(); facts.listeners.len()];
        hops.iter().for_each(|hop| fronts_of[hop.back].push(hop.front));
        let mut ids: HashMap<(usize, u64), Option<usize>, Numbers> = HashMap::default();
        let is_front = |one: &Request| hops.iter().any(|hop| hop.front == facts.listener(one));
        for (at, one) in facts.requests.iter().enumerate().filter(|one| is_front(one.1)) {
            for (kind, id) in one.ids.iter().enumerate().filter(|id| *id.1 != 0) {
                // Each listener has its own ids, since one proxy may stand behind another.
                let key = (facts.listener(one) * 2 + kind, *id);
                ids.entry(key).and_modify(|known| *known = None).or_insert(Some(at));
            }
        }
        let is_back = |one: &Request| !fronts_of[facts.listener(one)].is_empty();
        let has_tries = facts.requests.iter().any(|one| is_back(one) && one.has_failed());
        let fronts = || facts.requests.iter().filter(|one| is_front(one));
        let has_broken = fronts().any(|one| !one.is_whole());
        let has_nameless = NAMED.map(|likeness| fronts().any(|one| name_of(one, likeness) == 0));
        let (open, ending, found) = (Default::default(), BinaryHeap::new(), Candidates::default());
        Search { facts, courses, fronts_of, open, ending, ids, has_tries, has_broken, has_nameless, found }
    }

    pub fn found(mut self, hops: &[Hop]) -> Candidates {
        let is_front = |listener: usize| hops.iter().any(|hop| hop.front == listener);
        let facts = self.facts;
        let mut next = 0;
        for (back, one) in facts.requests.iter().enumerate() {
            // Openings of both legs may be told a little out of order.
            let until = one.opened.saturating_add(SLACK);
            while let Some(front) = facts.requests.get(next).filter(|front| front.opened <= until) {
                if is_front(facts.listener(front)) {
                    self.opens(next, front);
                }
                next += 1;
            }
            self.end_before(one.opened);
            if !self.fronts_of[facts.listener(one)].is_empty() {
                let claim = self.claim(back, one);
                self.found.claims.extend(claim);
            }
        }
        self.end_before(Nanos::MAX);
        self.found
    }

    fn keys_of(&self, one: &Request, likeness: Likeness) -> [Option<Key>; 2] {
        let key = key_of(self.facts.listener(one), one, name_of(one, likeness), fate_of(one));
        [Some(key), self.has_tries.then_some((key.0, key.1, ANY))]
    }

    fn opens(&mut self, at: usize, one: &Request) {
        for (number, likeness) in NAMED.into_iter().enumerate() {
            if self.open[number].is_some() {
                let keys = self.keys_of(one, likeness);
                self.open[number].iter_mut().for_each(|table| put(table, &keys, at));
            }
        }
        self.ending.push(Reverse((one.until, at)));
    }

    fn end_before(&mut self, time: Nanos) {
        while let Some(Reverse((_, at))) = self.ending.peek().filter(|end| end.0 .0 < time).copied() {
            self.ending.pop();
            for (number, likeness) in NAMED.into_iter().enumerate() {
                if self.open[number].is_none() {
                    continue;
                }
                let keys = self.keys_of(&self.facts.requests[at], likeness);
                if let Some(table) = &mut self.open[number] {
                    let ended = (at, time);
                    keys.iter().flatten().for_each(|key| end(table, *key, ended, self.facts, &mut self.found.crowded));
                }
            }
        }
    }

    /// The table of a likeness, which is made of those that are open when some are first compared by it.
    fn table(&mut self, number: usize) -> &mut Table {
        if self.open[number].is_none() {
            let mut table = Table::default();
            for Reverse((_, at)) in &self.ending {
                put(&mut table, &self.keys_of(&self.facts.requests[*at], NAMED[number]), *at);
            }
            self.open[number] = Some(table);
        }
        self.open[number].get_or_insert_with(Table::default)
    }

    fn claim(&mut self, back: usize, one: &Request) -> Option<Claim> {
        if let Some(front) = self.by_id(one) {
            let is_answer = one.is_whole() && one.may_answer(&self.facts.requests[front]) || !self.may_try(one, front);
            return Some(Claim { back, fronts: vec![front], likeness: Likeness::Id, is_answer, is_crowded: false });
        }
        for (number, likeness) in NAMED.into_iter().enumerate() {
            if likeness != Likeness::Content && name_of(one, likeness) == 0 {
                continue;
            }
            for is_answer in [Some(true), self.has_tries.then_some(false)].into_iter().flatten() {
                let (fronts, is_crowded) = self.alike(back, one, number, is_answer);
                let is_told = likeness != Likeness::Content || one.ways.iter().any(|way| way.content >= LEAST_CONTENT);
                if is_crowded || !fronts.is_empty() && (is_told || !self.has_names(one, &fronts)) {
                    return Some(Claim { back, fronts, likeness, is_answer, is_crowded });
                }
            }
        }
        None
    }

    fn may_try(&self, one: &Request, front: usize) -> bool {
        one.may_be_try_of(&self.facts.requests[front])
    }

    /// Whether names of all of these are known, and of this one too.
    fn has_names(&self, one: &Request, fronts: &[usize]) -> bool {
        one.last != 0 && fronts.iter().all(|front| self.facts.requests[*front].last != 0)
    }

    fn by_id(&self, one: &Request) -> Option<usize> {
        let listeners = &self.fronts_of[self.facts.listener(one)];
        let ids = one.ids.iter().enumerate().filter(|id| *id.1 != 0);
        let mut fronts =
            ids.flat_map(|(kind, id)| listeners.iter().filter_map(move |front| self.ids.get(&(front * 2 + kind, *id))));
        fronts.find_map(|front| *front).filter(|front| one.may_have_id_of(&self.facts.requests[*front]))
    }

    /// The alike front requests that are open and that it can have answered, or tried to; whether they are too many.
    fn alike(&mut self, back: usize, one: &Request, number: usize, is_answer: bool) -> (Vec<usize>, bool) {
        let broken = Some(BROKEN).filter(|_| self.has_broken);
        let fates = match (is_answer, one.is_whole()) {
            (true, true) => [Some(fate_of(one)), broken],
            (true, false) => [broken, None],
            (false, _) => [Some(ANY), None],
        };
        let name = name_of(one, NAMED[number]);
        let names = [Some(name), Some(0).filter(|_| name != 0 && self.has_nameless[number])];
        let (mut found, mut is_crowded) = (Vec::new(), false);
        let (facts, listeners) = (self.facts, std::mem::take(&mut self.fronts_of[self.facts.listener(one)]));
        let table = self.table(number);
        for listener in &listeners {
            for (name, fate) in
                names.iter().flatten().flat_map(|name| fates.iter().flatten().map(|fate| (*name, *fate)))
            {
                let open = match table.open.get_mut(&key_of(*listener, one, name, fate)) {
                    Some(open) => open,
                    None => continue,
                };
                if open.count > MOST_OPEN {
                    open.crowded = Some(one.opened);
                    is_crowded = true;
                    continue;
                }
                found.extend(open.fronts.iter().filter(|front| facts.requests[**front].until >= one.opened));
            }
        }
        self.fronts_of[facts.listener(one)] = listeners;
        found.retain(|front| self.fits(*front, back, is_answer));
        found.sort_unstable();
        (found, is_crowded)
    }

    fn fits(&self, front: usize, back: usize, is_answer: bool) -> bool {
        let [one, other] = [front, back].map(|at| &self.facts.requests[at]);
        let may = if is_answer { other.may_answer(one) } else { other.may_be_try_of(one) };
        let [here, there] = [front, back].map(|at| &self.courses[at]);
        may && here[0].never_behind(&there[0]) && (!is_answer || there[1].never_behind(&here[1]))
    }
}

fn put(table: &mut Table, keys: &[Option<Key>; 2], at: usize) {
    let Table { open, rooms } = table;
    for key in keys.iter().flatten() {
        let new = || Open { fronts: rooms.pop().unwrap_or_default(), ..Open::default() };
        let open = open.entry(*key).or_insert_with(new);
        open.fronts.push(at);
        open.count += 1;
    }
}

/// One of them ended before a time. Those that ended are taken away where they are more than the others.
fn end(table: &mut Table, key: Key, (at, time): (usize, Nanos), facts: &Facts, crowded: &mut BTreeSet<usize>) {
    let mut entry = match table.open.entry(key) {
        Entry::Occupied(entry) => entry,
        Entry::Vacant(_) => return,
    };
    let open = entry.get_mut();
    open.count -= 1;
    if open.crowded.map_or(false, |crowded| crowded >= facts.requests[at].opened) {
        crowded.insert(at);
    }
    if open.count == 0 {
        let mut room = entry.remove().fronts;
        room.clear();
        room.shrink_to(FEW);
        table.rooms.push(room);
    } else if open.fronts.len() > 2 * open.count + FEW {
        open.fronts.retain(|front| facts.requests[*front].until >= time);
    }
}
