//! Behind which other request a front one stood: one whose client or upstream braked the connection that both share, or
//! that had most of what was held of its window.

use std::collections::HashMap;

use cutter::Numbers;

use crate::answer::{Nanos, StallSaid};
use crate::legs::account::Stretch;
use crate::legs::course::ByteCourse;
use crate::legs::said::{Brake, Part, Place, Whose};

/// Shorter pieces are the proxy's own.
const LEAST: Nanos = 1_000_000;
/// How many stalls of a connection are looked at, the longest first; how many requests of a moment; and how many looks
/// there are in all.
const MOST_STALLS: usize = 256;
const MOST_OPEN: usize = 1024;
const MOST_LOOKS: usize = 1 << 22;
/// So many brakes are looked at that may hold a stretch.
const MOST_BRAKES: usize = 64;

/// A pair that is told: its places in the list of all, on a connection that it shares with others.
#[derive(Clone, Copy, Debug)]
pub struct Sharing<'a> {
    pub front: usize,
    pub place: Place,
    pub opened: Nanos,
    pub until: Nanos,
    /// What came to the proxy and what it sent on, in the direction that the connection brings.
    pub came: &'a ByteCourse,
    pub sent: &'a ByteCourse,
}

/// A connection that brings the proxy what it sends on: a back one of answers, a front one of requests.
#[derive(Debug, Default)]
pub struct Shared<'a> {
    pairs: Vec<Sharing<'a>>,
    /// When requests of it were held back: begin, end, and the pair.
    brakes: Vec<(Nanos, Nanos, usize)>,
    latest: Vec<Nanos>,
    /// When something of it went through, and of which pair; and where the next of another pair stands.
    through: Vec<(Nanos, usize)>,
    runs: Vec<u32>,
    /// Stalls of its window, and the pair that has most of what is held then.
    holders: Vec<(Nanos, Nanos, Option<usize>)>,
}

/// All such connections: of answers by back connections, of requests by front ones.
#[derive(Debug, Default)]
pub struct Others<'a> {
    shared: [HashMap<usize, Shared<'a>, Numbers>; 2],
}

impl<'a> Others<'a> {
    /// Adds a pair, with its brakes in the direction of a side, on the connection that brings that.
    pub fn add(&mut self, side: usize, connection: usize, pair: Sharing<'a>, brakes: &[Brake]) {
        let shared = self.shared[side].entry(connection).or_default();
        let at = shared.pairs.len();
        let begin = pair.opened;
        let of_side = brakes.iter().filter(|one| one.is_by_client == (side == import::SERVER));
        shared.brakes.extend(of_side.map(|one| (begin.max(one.begin), one.begin + one.nanos, at)));
        shared.pairs.push(pair);
    }

    /// All are there. Stalls are those of a side's connection window.
    pub fn ready<'b>(&mut self, stalls: impl Fn(usize) -> &'b [StallSaid]) {
        let mut looks = MOST_LOOKS;
        for (side, shared) in self.shared.iter_mut().enumerate() {
            let mut connections: Vec<_> = shared.iter_mut().collect();
            connections.sort_by_key(|one| *one.0);
            for (connection, one) in connections {
                one.ready(side, stalls(*connection), &mut looks);
            }
        }
    }

    /// Adds the parts of a stretch: those behind others, and the rest.
    pub fn parts(&self, stretch: &Stretch, (front, back): (usize, Option<usize>), own: usize, parts: &mut Vec<Part>) {
        let Stretch { begin, end, whose, is_request, is_of_connection } = *stretch;
        let whole = Part { begin, end, whose, behind: None };
        let other = match whose {
            Whose::ProxyHeld => Whose::OtherHeld,
            Whose::ProxyBefore if is_request => Whose::OtherUpload,
            Whose::ProxyStall if is_of_connection => Whose::OtherWindow,
            _ => return parts.push(whole),
        };
        let (side, connection) = if is_request { (import::CLIENT, Some(front)) } else { (import::SERVER, back) };
        let shared = match connection.and_then(|connection| self.shared[side].get(&connection)) {
            Some(shared) => shared,
            None => return parts.push(whole),
        };
        if other == Whose::OtherWindow {
            let holder = shared.holder(begin, end).filter(|pair| pair.front != own);
            let behind = holder.map(|pair| pair.place);
            let whose = if behind.is_some() { other } else { whose };
            return parts.push(Part { whose, behind, ..whole });
        }
        if shared.brakes.is_empty() {
            return parts.push(whole);
        }
        divided(stretch, &shared.behind(begin, end, own), other, parts);
    }
}

fn divided(stretch: &Stretch, pieces: &[(Nanos, Nanos, Place)], other: Whose, parts: &mut Vec<Part>) {
    let Stretch { begin, end, whose, .. } = *stretch;
    let mut at = begin;
    let mut add = |part: Part| parts.extend(Some(part).filter(|part| part.begin < part.end));
    for (from, to, place) in pieces {
        add(Part { begin: at, end: *from, whose, behind: None });
        add(Part { begin: *from, end: *to, whose: other, behind: Some(*place) });
        at = *to;
    }
    add(Part { begin: at, end, whose, behind: None });
}

impl Shared<'_> {
    fn ready(&mut self, side: usize, stalls: &[StallSaid], looks: &mut usize) {
        self.brakes.sort_unstable();
        let latest = self.brakes.iter().scan(Nanos::MIN, |latest, one| {
            *latest = one.1.max(*latest);
            Some(*latest)
        });
        self.latest = latest.collect();
        if !self.brakes.is_empty() {
            let steps = self.pairs.iter().enumerate();
            self.through =
                steps.flat_map(|(at, pair)| pair.sent.steps().iter().map(move |step| (step.0, at))).collect();
            self.through.sort_unstable();
            self.runs = vec![self.through.len() as u32; self.through.len()];
            for at in (0..self.through.len().saturating_sub(1)).rev() {
                let is_same = self.through[at].1 == self.through[at + 1].1;
                self.runs[at] = if is_same { self.runs[at + 1] } else { at as u32 + 1 };
            }
        }
        self.pairs_by_opening(side, stalls, looks);
    }

    fn pairs_by_opening(&mut self, side: usize, stalls: &[StallSaid], looks: &mut usize) {
        let is_its = |one: &&StallSaid| one.stream == 0 && one.side as usize == side;
        let mut found: Vec<&StallSaid> = stalls.iter().filter(is_its).collect();
        if found.is_empty() {
            return;
        }
        found.sort_by_key(|one| std::cmp::Reverse(one.nanos));
        found.truncate(MOST_STALLS);
        found.sort_by_key(|one| one.begin.time);
        let mut order: Vec<usize> = (0..self.pairs.len()).collect();
        order.sort_by_key(|at| self.pairs[*at].opened);
        self.holders = found.iter().map(|one| (one.begin.time, one.until, None)).collect();
        for at in 0..self.holders.len() {
            let time = self.holders[at].0;
            let before = order.partition_point(|pair| self.pairs[*pair].opened <= time);
            let open = &order[before.saturating_sub(MOST_OPEN)..before];
            if *looks < open.len() {
                return;
            }
            *looks -= open.len();
            self.holders[at].2 = self.holder_at(time, open);
        }
    }

    /// The pair that has half of what is held at a time, or more.
    fn holder_at(&self, time: Nanos, open: &[usize]) -> Option<usize> {
        let held = |pair: &Sharing<'_>| pair.came.at(time).saturating_sub(pair.sent.at(time));
        let all = open.iter().map(|at| (held(&self.pairs[*at]), *at)).filter(|one| self.pairs[one.1].until > time);
        let (mut sum, mut most) = (0_u64, (0, 0));
        for one in all {
            sum = sum.saturating_add(one.0);
            most = most.max(one);
        }
        (most.0 > 0 && most.0.saturating_mul(2) >= sum).then_some(most.1)
    }

    fn holder(&self, begin: Nanos, end: Nanos) -> Option<&Sharing<'_>> {
        let before = self.holders.partition_point(|one| one.0 <= begin);
        let (.., pair) = self.holders[..before].last().filter(|one| one.1 >= end)?;
        pair.and_then(|pair| self.pairs.get(pair))
    }

    /// When another pair that was braked held up all that the connection brings, within a stretch: the one that did so
    /// longest. Nothing of any third pair went through meanwhile.
    fn behind(&self, begin: Nanos, end: Nanos, own: usize) -> Vec<(Nanos, Nanos, Place)> {
        let before = self.brakes.partition_point(|one| one.0 < end);
        let near = self.brakes[..before].iter().zip(&self.latest).rev().take_while(|one| *one.1 > begin);
        let overlap = |one: &(Nanos, Nanos, usize)| (one.1.min(end) - one.0.max(begin)).max(0);
        let others = near.map(|one| one.0).filter(|one| self.pairs[one.2].front != own).take(MOST_BRAKES);
        let (from, to, pair) = match others.max_by_key(|one| overlap(one)).filter(|one| overlap(one) >= LEAST) {
            Some(one) => (one.0.max(begin), one.1.min(end), one.2),
            None => return Vec::new(),
        };
        let place = self.pairs[pair].place;
        let mut pieces = Vec::new();
        let mut free = from;
        let mut at = self.through.partition_point(|step| step.0 <= from);
        while let Some((time, by)) = self.through.get(at).filter(|step| step.0 < to) {
            if *by == pair || self.pairs[*by].front == own {
                at = self.runs[at] as usize;
                continue;
            }
            if time - free >= LEAST {
                pieces.push((free, *time, place));
            }
            // The last step of that run begins what is free.
            at = self.runs[at] as usize;
            free = self.through[at - 1].0.min(to);
        }
        if to - free >= LEAST {
            pieces.push((free, to, place));
        }
        pieces
    }
}

#[cfg(test)]
mod tests {
    use super::*;
    use crate::legs::course::tests::course;

    const MS: Nanos = 1_000_000;

    fn brake(begin: Nanos, end: Nanos) -> Brake {
        let (begin, nanos) = (begin * MS, (end - begin) * MS);
        Brake { is_by_client: true, begin, nanos, most_held: 1, passed_on: Vec::new() }
    }

    fn sharing<'a>(front: usize, came: &'a ByteCourse, sent: &'a ByteCourse) -> Sharing<'a> {
        Sharing { front, place: (front, 0), opened: 0, until: 1000 * MS, came, sent }
    }

    fn stretch(whose: Whose) -> Stretch {
        Stretch { begin: 10 * MS, end: 90 * MS, whose, is_request: false, is_of_connection: true }
    }

    fn parts_of(others: &Others<'_>, whose: Whose, back: usize, own: usize) -> Vec<Part> {
        let mut parts = Vec::new();
        others.parts(&stretch(whose), (3, Some(back)), own, &mut parts);
        parts
    }

    fn told(parts: &[Part]) -> Vec<(Nanos, Nanos, Whose)> {
        parts.iter().map(|part| (part.begin / MS, part.end / MS, part.whose)).collect()
    }

    #[test]
    fn behind_one_that_was_braked() {
        let came = course(0, &[(MS, 100)], Some(2 * MS));
        let [braked, own, third] =
            [course(0, &[], None), course(90 * MS, &[], None), course(30 * MS, &[], Some(31 * MS))];
        let mut others = Others::default();
        others.add(1, 7, sharing(0, &came, &braked), &[brake(20, 80)]);
        others.add(1, 7, sharing(1, &came, &own), &[]);
        others.ready(|_| &[]);
        let all = [(10, 20, Whose::ProxyHeld), (20, 80, Whose::OtherHeld), (80, 90, Whose::ProxyHeld)];
        assert_eq!(told(&parts_of(&others, Whose::ProxyHeld, 7, 1)), all);
        assert_eq!(parts_of(&others, Whose::ProxyHeld, 7, 1)[1].behind, Some((0, 0)));
        assert_eq!(told(&parts_of(&others, Whose::ProxyHeld, 8, 1)), [(10, 90, Whose::ProxyHeld)]);
        assert_eq!(told(&parts_of(&others, Whose::Client, 7, 1)), [(10, 90, Whose::Client)]);
        let mut others = Others::default();
        others.add(1, 7, sharing(0, &came, &braked), &[brake(20, 80)]);
        others.add(1, 7, sharing(2, &came, &third), &[]);
        others.ready(|_| &[]);
        let all = [
            (10, 20, Whose::ProxyHeld),
            (20, 30, Whose::OtherHeld),
            (30, 31, Whose::ProxyHeld),
            (31, 80, Whose::OtherHeld),
            (80, 90, Whose::ProxyHeld),
        ];
        assert_eq!(told(&parts_of(&others, Whose::ProxyHeld, 7, 1)), all, "a third went through");
    }

    #[test]
    fn one_that_has_most_of_the_window() {
        let [many, few, sent] = [course(0, &[(MS, 100)], None), course(0, &[(MS, 90)], None), course(0, &[], None)];
        for (second, is_behind) in [(&few, true), (&many, true)] {
            let mut others = Others::default();
            others.add(1, 7, sharing(0, &many, &sent), &[]);
            others.add(1, 7, sharing(1, second, &sent), &[]);
            others.add(1, 7, sharing(2, &sent, &sent), &[]);
            others.shared[1].get_mut(&7).into_iter().for_each(|one| {
                one.ready(1, &[], &mut 0);
                one.holders = vec![(5 * MS, 95 * MS, one.holder_at(5 * MS, &[0, 1, 2]))];
            });
            let parts = parts_of(&others, Whose::ProxyStall, 7, 2);
            assert_eq!(told(&parts), [(10, 90, if is_behind { Whose::OtherWindow } else { Whose::ProxyStall })]);
        }
        let pairs = vec![sharing(0, &few, &sent), sharing(1, &many, &sent), sharing(2, &many, &sent)];
        let shared = Shared { pairs, ..Shared::default() };
        assert_eq!(shared.holder_at(5 * MS, &[0, 1, 2]), None, "none has half of it");
        assert_eq!(shared.holder_at(0, &[0, 1, 2]), None, "nothing is held");
    }
}
