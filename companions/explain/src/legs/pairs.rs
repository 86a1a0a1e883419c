//! Pairs by elimination: a back request that fits one front request alone is its pair, and then no other one's.

use std::collections::{BTreeSet, HashMap, HashSet};

use cutter::Numbers;

use crate::legs::candidates::{Candidates, Claim};
use crate::legs::facts::Facts;
use crate::legs::said::{Likeness, PairGrade};

/// Stands at a front request that none is known to have answered.
const FREE: usize = usize::MAX;
/// A proxy keeps turns if so many pairs of a front connection do.
const LEAST_TURNS: usize = 3;

/// The other leg of a request.
#[derive(Clone, Copy, Debug, PartialEq, Eq)]
pub struct Pair {
    pub front: usize,
    pub back: usize,
    pub grade: PairGrade,
    pub likeness: Likeness,
    pub is_answer: bool,
}

#[derive(Debug, Default)]
pub struct Pairs {
    /// By the openings of back requests.
    pub all: Vec<Pair>,
    /// Front and back requests of which it cannot be told.
    pub ambiguous: BTreeSet<usize>,
}

pub fn pairs_of(facts: &Facts, candidates: Candidates) -> Pairs {
    let Candidates { claims, crowded } = candidates;
    let mut matching = Matching::new(facts, claims);
    matching.eliminate();
    let mut pairs = matching.paired();
    if pairs.all.iter().any(|pair| pair.grade == PairGrade::Ambiguous) {
        matching.in_turn(&mut pairs);
    }
    pairs.ambiguous.extend(crowded);
    for pair in &mut pairs.all {
        if is_doubtful(facts, pair) {
            pair.grade = pair.grade.max(PairGrade::Likely);
        }
    }
    pairs
}

/// Whether other requests may have been carried than were seen.
fn is_doubtful(facts: &Facts, pair: &Pair) -> bool {
    let [front, back] = [pair.front, pair.back].map(|at| &facts.requests[at]);
    let listener = facts.listener(front);
    let is_rival = |one: &crate::legs::facts::Unread| {
        one.listener == listener && one.begin <= back.opened && back.opened <= one.until
    };
    let is_by_id = pair.likeness == Likeness::Id;
    facts.is_doubtful(front) || facts.is_doubtful(back) || !is_by_id && facts.unread.iter().any(is_rival)
}

struct Matching<'a> {
    facts: &'a Facts,
    claims: Vec<Claim>,
    /// Front requests with the claims on them, in order.
    on: Vec<(usize, usize)>,
    /// By front requests the back one that answered, by elimination, or none.
    taken: Vec<usize>,
}

impl<'a> Matching<'a> {
    fn new(facts: &'a Facts, claims: Vec<Claim>) -> Matching<'a> {
        let fronts =
            claims.iter().enumerate().flat_map(|(at, claim)| claim.fronts.iter().map(move |front| (*front, at)));
        let mut on: Vec<_> = fronts.collect();
        on.sort_unstable();
        Matching { facts, claims, on, taken: vec![FREE; facts.requests.len()] }
    }

    fn is_single(&self, claim: usize) -> bool {
        let claim = &self.claims[claim];
        claim.fronts.len() == 1 && !claim.is_crowded
    }

    /// As long as some claim has one front request left, pairs these two, and takes that request from other claims.
    fn eliminate(&mut self) {
        let mut next: Vec<usize> = (0..self.claims.len()).filter(|at| self.is_single(*at)).collect();
        // What is most alike takes first.
        next.sort_by_key(|at| std::cmp::Reverse((self.claims[*at].likeness, *at)));
        while let Some(at) = next.pop() {
            let (front, back) = match &self.claims[at] {
                Claim { fronts, back, is_answer: true, .. } if fronts.len() == 1 => (fronts[0], *back),
                _ => continue,
            };
            let taken = &mut self.taken[front];
            if !self.facts.requests[back].is_whole() || *taken != FREE && *taken != back {
                continue;
            }
            *taken = back;
            let opened = self.facts.requests[back].opened;
            let first = self.on.partition_point(|one| one.0 < front);
            for place in first..self.on.len() {
                let other = match self.on[place] {
                    (of, other) if of == front => other,
                    _ => break,
                };
                let claim = &mut self.claims[other];
                let one = &self.facts.requests[claim.back];
                let is_rival = claim.is_answer && one.is_whole() || one.opened > opened;
                // If two answers fit this front request alone, both keep it: nothing tells which one it was.
                if other != at && is_rival && claim.fronts.len() > 1 {
                    claim.fronts.retain(|one| *one != front);
                    if self.is_single(other) {
                        next.push(other);
                    }
                }
            }
        }
    }

    /// Back requests that fit one front request alone are sure; the others go in turn.
    fn paired(&self) -> Pairs {
        let mut pairs = Pairs::default();
        let mut answered = vec![0_u32; self.facts.requests.len()];
        for claim in self.claims.iter().filter(|claim| claim.is_answer) {
            if let [front] = claim.fronts[..] {
                answered[front] += 1;
            }
        }
        let mut used: HashSet<usize, Numbers> = HashSet::default();
        for claim in &self.claims {
            let Claim { back, likeness, is_answer, .. } = *claim;
            let pair = |front, grade| Pair { front, back, grade, likeness, is_answer };
            match claim.fronts[..] {
                [front] if !claim.is_crowded => {
                    // An answer has one back request.
                    let is_one = !is_answer || answered[front] <= 1;
                    let grade = if is_one { PairGrade::Sure } else { PairGrade::Ambiguous };
                    pairs.all.push(pair(front, grade));
                }
                _ if claim.is_crowded => pairs.ambiguous.extend([back]),
                _ => {
                    pairs.ambiguous.extend(claim.fronts.iter().copied());
                    let is_used = |front: &usize| answered[*front] > 0 || used.contains(front);
                    match claim.fronts.iter().find(|front| !is_answer || !is_used(front)) {
                        Some(front) => {
                            used.extend(Some(*front).filter(|_| is_answer));
                            pairs.all.push(pair(*front, PairGrade::Ambiguous));
                        }
                        None => pairs.ambiguous.extend([back]),
                    }
                }
            }
        }
        pairs
    }

    /// Where the proxy keeps turns, and no request of another connection fits, the turn makes a pair likely.
    fn in_turn(&self, pairs: &mut Pairs) {
        let connection = |front: usize| self.facts.requests[front].connection;
        let mut sure: HashMap<usize, Vec<(usize, usize)>, Numbers> = HashMap::default();
        for pair in pairs.all.iter().filter(|pair| pair.grade == PairGrade::Sure && pair.is_answer) {
            sure.entry(connection(pair.front)).or_default().push((pair.front, pair.back));
        }
        let keeps = |pairs: &mut Vec<(usize, usize)>| {
            pairs.sort_unstable();
            pairs.len() >= LEAST_TURNS && pairs.windows(2).all(|two| two[0].1 < two[1].1)
        };
        let kept: HashSet<usize, Numbers> =
            sure.iter_mut().filter_map(|(at, pairs)| keeps(pairs).then_some(*at)).collect();
        let of_claim: HashMap<usize, &Claim, Numbers> = self.claims.iter().map(|claim| (claim.back, claim)).collect();
        let is_likely = |pair: &Pair| {
            let fronts = of_claim.get(&pair.back).map_or(&[][..], |claim| &claim.fronts);
            let one = connection(pair.front);
            fronts.len() > 1 && kept.contains(&one) && fronts.iter().all(|front| connection(*front) == one)
        };
        let end = |at: usize| self.facts.requests[at].ways[1].end;
        let some: Vec<usize> = (0..pairs.all.len())
            .filter(|at| pairs.all[*at].grade == PairGrade::Ambiguous && is_likely(&pairs.all[*at]))
            .collect();
        let is_in_turn = |one: &Pair, other: &Pair| {
            connection(one.front) != connection(other.front)
                || (end(one.front) <= end(other.front)) == (end(one.back) <= end(other.back))
        };
        let judged: Vec<usize> = some
            .iter()
            .enumerate()
            .filter(|(place, at)| {
                let beside = [place.checked_sub(1), Some(place + 1)].into_iter().flatten();
                let mut beside = beside.filter_map(|place| some.get(place));
                beside.all(|other| is_in_turn(&pairs.all[**at.min(&other)], &pairs.all[**at.max(&other)]))
            })
            .map(|one| *one.1)
            .collect();
        for at in judged {
            pairs.all[at].grade = PairGrade::Likely;
        }
    }
}

#[cfg(test)]
mod tests {
    use super::*;
    use crate::answer::Nanos;
    use crate::legs::candidates::{Search, MOST_OPEN};
    use crate::legs::course::tests::course;
    use crate::legs::course::ByteCourse;
    use crate::legs::facts::tests::{facts, request};
    use crate::legs::facts::Request;
    use crate::legs::hops::Hop;

    const HOP: [Hop; 1] = [Hop { front: 0, back: 1 }];

    fn courses(facts: &Facts) -> Vec<[ByteCourse; 2]> {
        let of = |one: &Request| {
            let asked = course(one.opened, &[], Some(one.opened));
            let first = one.ways[1].first.unwrap_or(one.until);
            [asked, course(first, &[(one.until, one.ways[1].content)], Some(one.until))]
        };
        facts.requests.iter().map(of).collect()
    }

    fn found(facts: &Facts) -> Pairs {
        let courses = courses(facts);
        pairs_of(facts, Search::new(facts, &courses, &HOP).found(&HOP))
    }

    /// Front and back request by their openings in units of 10 µs, and the grade.
    fn told(facts: &Facts) -> Vec<(Nanos, Nanos, PairGrade)> {
        let opened = |at: usize| facts.requests[at].opened / 10_000;
        found(facts).all.iter().map(|pair| (opened(pair.front), opened(pair.back), pair.grade)).collect()
    }

    fn at(connection: usize, begin: Nanos, end: Nanos, path: u32, content: u64) -> Request {
        request(connection, (begin * 10_000, end * 10_000), path, content)
    }

    use PairGrade::{Ambiguous, Likely, Sure};

    #[test]
    fn names_tell_requests_apart() {
        let both = vec![at(0, 1, 50, 1, 9), at(0, 2, 50, 2, 9), at(1, 3, 40, 2, 9), at(1, 4, 40, 1, 9)];
        assert_eq!(told(&facts(&[0, 1], both)), [(2, 3, Sure), (1, 4, Sure)]);
    }

    #[test]
    fn what_one_alone_fits_is_no_others() {
        // The first back request ends too late for the second front one.
        let both = vec![at(0, 1, 90, 1, 9), at(0, 2, 50, 1, 9), at(1, 3, 80, 1, 9), at(1, 4, 40, 1, 9)];
        assert_eq!(told(&facts(&[0, 1], both)), [(1, 3, Sure), (2, 4, Sure)]);
    }

    #[test]
    fn equal_ones_are_ambiguous() {
        let both = vec![at(0, 1, 50, 1, 9), at(2, 2, 50, 1, 9), at(1, 3, 40, 1, 9), at(1, 4, 40, 1, 9)];
        let facts = facts(&[0, 1, 0], both);
        assert_eq!(told(&facts), [(1, 3, Ambiguous), (2, 4, Ambiguous)]);
        assert_eq!(found(&facts).ambiguous.len(), 2);
    }

    #[test]
    fn turns_that_were_kept_make_it_likely() {
        let before = (0..3).flat_map(|turn| {
            let begin = turn * 10;
            [at(0, begin, begin + 9, 1, 9), at(1, begin + 1, begin + 8, 1, 9)]
        });
        let both = [at(0, 101, 150, 1, 9), at(0, 102, 160, 1, 9), at(1, 103, 140, 1, 9), at(1, 104, 141, 1, 9)];
        let found = told(&facts(&[0, 1], before.chain(both).collect()));
        assert_eq!(found[3..], [(101, 103, Likely), (102, 104, Likely)]);
    }

    #[test]
    fn ids_tell_requests_apart() {
        let mut both = vec![at(0, 1, 50, 1, 9), at(0, 2, 50, 1, 9), at(1, 3, 40, 1, 9), at(1, 4, 40, 1, 9)];
        for (one, id) in both.iter_mut().zip([7, 8, 8, 7]) {
            one.ids[0] = id;
        }
        both[3].ways[1].content = 5;
        assert_eq!(told(&facts(&[0, 1], both.clone())), [(2, 3, Sure), (1, 4, Sure)], "compressed too");
        both[1].ids[0] = 7;
        assert_eq!(told(&facts(&[0, 1], both)), [(1, 3, Ambiguous)], "an id of two tells neither");
    }

    #[test]
    fn a_try_that_failed_and_another() {
        let mut both = vec![at(0, 1, 50, 1, 9), at(1, 2, 5, 1, 0), at(1, 6, 40, 1, 9)];
        both[1].ways[1].is_whole = false;
        both[1].status = None;
        assert_eq!(told(&facts(&[0, 1], both)), [(1, 2, Sure), (1, 6, Sure)]);
    }

    #[test]
    fn of_two_answers_that_fit_one_alone_none_is_sure() {
        let mut both = vec![at(0, 1, 50, 1, 9), at(1, 3, 40, 1, 9), at(1, 4, 40, 1, 9)];
        for one in &mut both {
            one.ways[1].is_whole = false;
            one.ways[1].is_open = true;
        }
        assert_eq!(told(&facts(&[0, 1], both)), [(1, 3, Ambiguous), (1, 4, Ambiguous)]);
    }

    #[test]
    fn what_was_not_seen_is_never_sure() {
        let both = vec![at(0, 1, 50, 1, 9), at(1, 3, 40, 1, 9)];
        let mut facts = facts(&[0, 1], both);
        facts.connections[1].is_doubtful = true;
        assert_eq!(told(&facts), [(1, 3, Likely)]);
        facts.connections[1].is_doubtful = false;
        facts.unread.push(crate::legs::facts::Unread { listener: 0, begin: 0, until: 1_000_000 });
        assert_eq!(told(&facts), [(1, 3, Likely)], "another front request may have been it");
    }

    #[test]
    fn too_many_are_not_told_apart() {
        let number = MOST_OPEN as Nanos + 1;
        let fronts = (0..number).map(|one| at(0, one, 1000, 1, 9));
        let backs = (0..number).map(|one| at(1, 200 + one, 900, 1, 9));
        let facts = facts(&[0, 1], fronts.chain(backs).collect());
        let found = found(&facts);
        assert_eq!((found.all.len(), found.ambiguous.len()), (0, 2 * number as usize));
    }

    #[test]
    fn those_that_ended_do_not_count() {
        // A back request of another name begins the search while most fronts are still to come.
        let (number, other) = (MOST_OPEN as Nanos + 1, at(1, 1, 3, 2, 9));
        let short = (2..2 + number).map(|one| at(0, one, one + 1, 1, 9));
        let both = [at(0, 0, 2000, 1, 9), other].into_iter().chain(short).chain([at(1, 500, 900, 1, 9)]);
        assert_eq!(told(&facts(&[0, 1], both.collect())), [(0, 500, Sure)]);
    }

    #[test]
    fn more_was_handed_on_than_came() {
        let facts = facts(&[0, 1], vec![at(0, 1, 50, 1, 9), at(1, 3, 50, 1, 9)]);
        let mut courses = courses(&facts);
        courses[0][1] = course(250_000, &[(260_000, 9)], Some(500_000));
        let found = pairs_of(&facts, Search::new(&facts, &courses, &HOP).found(&HOP));
        assert_eq!(found.all, []);
    }
}
