//! Which listeners stand one behind the other: a proxy carries the requests of one to the other.

use std::collections::{HashMap, HashSet};

use cutter::Numbers;

use crate::answer::Nanos;
use crate::legs::course::SLACK;
use crate::legs::facts::{Brief, Whole};

/// So many listeners are looked at, those with most requests.
const MOST_LISTENERS: usize = 64;
/// By any name so many requests, and so many in ten, must fit.
const LEAST_BY_ANY: u64 = 5;
const TENTHS_BY_ANY: u64 = 9;

/// The numbers of two listeners.
#[derive(Clone, Copy, Debug, PartialEq, Eq, Hash, PartialOrd, Ord)]
pub struct Hop {
    pub front: usize,
    pub back: usize,
}

/// The names by which requests are compared.
#[derive(Clone, Copy, Debug, PartialEq, Eq)]
enum By {
    LastPart,
    Any,
}

/// How many whole requests each listener has, by its number; 0 where it is not looked at.
type Counts = Vec<u64>;
/// How many requests of one listener can have been carried for another one's.
type Fits = HashMap<Hop, u64, Numbers>;

pub fn hops_of(mut wholes: Vec<Whole>) -> Vec<Hop> {
    let counts = counts_of(&wholes);
    if counts.iter().filter(|count| **count > 0).count() < 2 {
        return Vec::new();
    }
    wholes.retain(|one| counts[one.listener as usize] > 0);
    // Those that were opened at once count alike in any order.
    wholes.sort_unstable_by_key(|one| one.brief.opened);
    let mut found = HopCounts { by_last: count(&wholes, &counts, By::LastPart), by_any: Fits::default(), counts };
    let by_last = found.chosen();
    // Where names tell no hop of a listener, any name may.
    let mut open = found.counts.clone();
    by_last.iter().for_each(|hop| [hop.front, hop.back].into_iter().for_each(|listener| open[listener] = 0));
    found.by_any = count(&wholes, &open, By::Any);
    if found.by_any.is_empty() {
        return by_last;
    }
    found.chosen()
}

fn counts_of(wholes: &[Whole]) -> Counts {
    let mut counts = vec![0; wholes.iter().map(|one| one.listener as usize + 1).max().unwrap_or(0)];
    wholes.iter().for_each(|one| counts[one.listener as usize] += 1);
    let mut most: Vec<usize> = (0..counts.len()).collect();
    most.sort_unstable_by_key(|listener| (std::cmp::Reverse(counts[*listener]), *listener));
    most.iter().skip(MOST_LISTENERS).for_each(|listener| counts[*listener] = 0);
    counts
}

impl By {
    /// What must be the same: the last part of the path, or 0 for any; method, status, and both contents.
    fn key(self, one: &Whole) -> Key {
        let last = match self {
            // A name that is unknown is one of its own.
            By::LastPart => one.last.max(u32::from(one.last == 0) * u32::MAX),
            By::Any => 0,
        };
        let Brief { method, status, contents, .. } = one.brief;
        let [sent, answered] = contents.map(|number| Halves((number >> 32) as u32, number as u32));
        Key { last, method, status, contents: (sent, answered) }
    }

    /// Whether so many of a listener's requests make a hop.
    fn is_enough(self, fits: u64, of: u64) -> bool {
        match self {
            By::LastPart => fits > 0 && fits * 2 >= of,
            By::Any => of >= LEAST_BY_ANY && fits * 10 >= of * TENTHS_BY_ANY,
        }
    }
}

/// In pieces of four bytes, so that a table of many has no gaps.
#[derive(Clone, Copy, Debug, PartialEq, Eq, Hash)]
struct Key {
    last: u32,
    method: u32,
    status: u32,
    contents: (Halves, Halves),
}

#[derive(Clone, Copy, Debug, PartialEq, Eq, Hash)]
struct Halves(u32, u32);

/// Requests by what is the same, which is numbered, of each listener the latest end of those that were opened so far.
#[derive(Default)]
struct Alike {
    numbers: HashMap<Key, u32, Numbers>,
    firsts: Vec<u32>,
    all: Vec<Latest>,
}

struct Latest {
    listener: u32,
    end: Nanos,
    /// The one of another listener that is alike; none behind the last.
    next: u32,
}

const NONE: u32 = u32::MAX;

impl Alike {
    /// Adds one. The number of what it has in common with others.
    fn add(&mut self, key: Key, one: &Whole) -> u32 {
        let Alike { numbers, firsts, all } = self;
        let number = *numbers.entry(key).or_insert(firsts.len() as u32);
        if number as usize == firsts.len() {
            firsts.push(NONE);
        }
        let first = &mut firsts[number as usize];
        let mut at = *first;
        while let Some(latest) = all.get_mut(at as usize) {
            if latest.listener == one.listener {
                latest.end = latest.end.max(one.brief.end);
                return number;
            }
            at = latest.next;
        }
        all.push(Latest { listener: one.listener, end: one.brief.end, next: *first });
        *first = all.len() as u32 - 1;
        number
    }

    /// Each other listener of which one of these lives to behind the end of a request.
    fn fronts<'a>(&'a self, number: u32, one: &'a Whole) -> impl Iterator<Item = usize> + 'a {
        let end = one.brief.end.saturating_sub(SLACK);
        let mut at = self.firsts[number as usize];
        let all = std::iter::from_fn(move || {
            let latest = self.all.get(at as usize)?;
            at = latest.next;
            Some(latest)
        });
        all.filter(move |latest| latest.listener != one.listener && latest.end >= end)
            .map(|latest| latest.listener as usize)
    }
}

/// Counts which requests of some listeners can have been carried for another one's: the other lives from before their
/// openings to behind their ends. None are found where too few can be left for any hop.
fn count(wholes: &[Whole], of: &Counts, by: By) -> Fits {
    let (mut alike, mut fits) = (Alike::default(), Fits::default());
    // How many of each cannot have been carried at all; and how many listeners may stand behind another.
    let mut missed = vec![0; of.len()];
    let mut open = of.iter().filter(|count| by.is_enough(**count, **count)).count();
    if open == 0 {
        return fits;
    }
    let all = || wholes.iter().filter(|one| of[one.listener as usize] > 0);
    let (mut next, mut numbers) = (all().peekable(), Vec::with_capacity(wholes.len()));
    for (place, one) in all().enumerate() {
        while let Some(front) = next.next_if(|front| front.brief.opened <= one.brief.opened.saturating_add(SLACK)) {
            numbers.push(alike.add(by.key(front), front));
        }
        let (back, mut is_missed) = (one.listener as usize, true);
        for front in alike.fronts(numbers[place], one) {
            *fits.entry(Hop { front, back }).or_default() += 1;
            is_missed = false;
        }
        if is_missed {
            let (number, missed) = (of[back], &mut missed[back]);
            *missed += 1;
            let is_open = |missed: u64| by.is_enough(number - missed, number);
            open -= usize::from(is_open(*missed - 1) && !is_open(*missed));
        }
        if open == 0 {
            return Fits::default();
        }
    }
    fits
}

/// All that was counted.
struct HopCounts {
    counts: Counts,
    by_last: Fits,
    by_any: Fits,
}

impl HopCounts {
    /// Half of all by the last part, or nearly all by any name; more than the other way round; and over no other hop.
    fn chosen(&self) -> Vec<Hop> {
        let hops = self.by_last.keys().chain(self.by_any.keys());
        let all: HashSet<Hop> = hops.filter(|hop| self.is_hop(hop) && self.is_better(hop)).copied().collect();
        let is_over = |hop: &&Hop| {
            let behind = all.iter().filter(|one| one.front == hop.front && one.back != hop.back);
            behind.into_iter().any(|one| all.contains(&Hop { front: one.back, back: hop.back }))
        };
        let mut chosen: Vec<Hop> = all.iter().filter(|hop| !is_over(hop)).copied().collect();
        chosen.sort_unstable();
        chosen
    }

    fn of(&self, listener: usize) -> u64 {
        self.counts[listener]
    }

    fn fits(&self, hop: &Hop) -> (u64, u64) {
        let of = |fits: &Fits| fits.get(hop).copied().unwrap_or(0);
        (of(&self.by_last), of(&self.by_any))
    }

    fn is_hop(&self, hop: &Hop) -> bool {
        let (of, (by_last, by_any)) = (self.of(hop.back), self.fits(hop));
        By::LastPart.is_enough(by_last, of) || By::Any.is_enough(by_any, of)
    }

    fn is_better(&self, hop: &Hop) -> bool {
        let (here, there) = (self.fits(hop), self.fits(&Hop { front: hop.back, back: hop.front }));
        let (here_of, there_of) = (self.of(hop.back), self.of(hop.front));
        (here.0 * there_of, here.1 * there_of) > (there.0 * here_of, there.1 * here_of)
    }
}

#[cfg(test)]
mod tests {
    use super::*;
    use crate::legs::facts::tests::{facts, request, whole};
    use crate::legs::facts::Facts;

    fn hops(facts: &Facts) -> Vec<(usize, usize)> {
        let wholes = facts.requests.iter().filter_map(|one| whole(one, facts.listener(one)));
        hops_of(wholes.collect()).iter().map(|hop| (hop.front, hop.back)).collect()
    }

    #[test]
    fn one_listener_behind_the_other() {
        let found = facts(&[0, 1], vec![request(0, (10_000, 90_000), 1, 5), request(1, (20_000, 80_000), 1, 5)]);
        assert_eq!(hops(&found), [(0, 1)]);
        let one_way = facts(&[0, 0], vec![request(0, (10_000, 90_000), 1, 5), request(1, (20_000, 80_000), 1, 5)]);
        assert_eq!(hops(&one_way), []);
        let other = facts(&[0, 1], vec![request(0, (10_000, 90_000), 1, 5), request(1, (20_000, 80_000), 2, 5)]);
        assert_eq!(hops(&other), [], "one alone by any name");
        let later = facts(&[0, 1], vec![request(0, (10_000, 90_000), 1, 5), request(1, (20_000, 95_000), 1, 5)]);
        assert_eq!(hops(&later), [], "it ended later");
    }

    #[test]
    fn other_names_need_more_requests() {
        for (number, is_hop) in [(4, false), (5, true)] {
            let both = (0..number).flat_map(|at| {
                let begin = at * 100_000;
                let back = request(1, (begin + 20_000, begin + 80_000), 100 + at as u32, 5 + at as u64);
                [request(0, (begin + 10_000, begin + 90_000), 1 + at as u32, 5 + at as u64), back]
            });
            assert_eq!(!hops(&facts(&[0, 1], both.collect())).is_empty(), is_hop);
        }
    }

    #[test]
    fn no_hop_over_another() {
        let all = [(0, 10_000, 90_000), (1, 20_000, 80_000), (2, 30_000, 70_000)];
        let requests = all.map(|(connection, begin, end)| request(connection, (begin, end), 1, 5));
        assert_eq!(hops(&facts(&[0, 1, 2], requests.to_vec())), [(0, 1), (1, 2)]);
    }

    #[test]
    fn half_of_its_requests_make_a_hop() {
        // What is alike at a listener that no proxy serves comes first, so that the hop shows late.
        let alone = (0..10).map(|at| request(1, (at * 1000, at * 1000 + 10), 7, 1));
        let both = (0..10).flat_map(|at| {
            let begin = 100_000 + at * 100_000;
            [request(0, (begin + 10_000, begin + 90_000), 1, 5), request(1, (begin + 20_000, begin + 80_000), 1, 5)]
        });
        let all: Vec<_> = alone.chain(both).collect();
        assert_eq!(hops(&facts(&[0, 1], all.clone())), [(0, 1)]);
        assert_eq!(hops(&facts(&[0, 1], all[..29].to_vec())), [], "one less than half");
        let another = [request(2, (0, 9), 1, 5)];
        assert_eq!(hops(&facts(&[0, 1, 0], [&another[..], &all].concat())), [(0, 1)]);
    }

    #[test]
    fn equal_work_beside_each_other_is_no_hop() {
        let both = (0..20).flat_map(|at| {
            let begin = at * 50_000;
            [request(0, (begin, begin + 90_000), 1, 5), request(1, (begin + 25_000, begin + 115_000), 1, 5)]
        });
        assert_eq!(hops(&facts(&[0, 1], both.collect())), []);
    }
}
