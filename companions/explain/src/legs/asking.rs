//! Whom to ask: the one who took most of a life; and of a hop the one who took most of all lives.

use std::collections::{HashMap, HashSet};

use crate::answer::{Answer, Nanos};
use crate::legs::said::{Ask, HopAsk, Legs, Part, Party, Place, Who, Whose};

/// It counts if it took so long, and such a part of the life.
const LEAST: Nanos = 10_000_000;
const PART: Nanos = 10;

/// Who took most, if that counts.
pub fn ask_of(parts: &[Part], sums: &[(Whose, Nanos)], life: Nanos) -> Option<Ask> {
    let mut times = [0; Who::ALL.len()];
    sums.iter().for_each(|one| times[one.0.who() as usize] += one.1);
    let who = Who::ALL.into_iter().max_by_key(|who| (times[*who as usize], std::cmp::Reverse(*who)))?;
    let nanos = times[who as usize];
    if who == Who::Unseen || nanos < LEAST || nanos < life / PART {
        return None;
    }
    let whose = sums.iter().filter(|one| one.0.who() == who).max_by_key(|one| one.1)?.0;
    let mut behind: HashMap<Place, Nanos> = HashMap::new();
    for part in parts.iter().filter(|part| part.whose == whose) {
        part.behind.into_iter().for_each(|place| *behind.entry(place).or_default() += part.end - part.begin);
    }
    let of = behind.into_iter().max_by_key(|one| (one.1, std::cmp::Reverse(one.0))).map(|one| one.0);
    Some(Ask { whose, party: party_of(whose), nanos, of })
}

fn party_of(whose: Whose) -> Option<Party> {
    match whose {
        Whose::OtherUpload => Some(Party::Upstream),
        _ => match whose.who() {
            Who::Client | Who::Other => Some(Party::Client),
            Who::Proxy => Some(Party::Proxy),
            Who::Upstream => Some(Party::Upstream),
            Who::Front | Who::Back | Who::Unseen => None,
        },
    }
}

/// What a party is known by in a hop: a client by its connection, a proxy by what it did.
type Known = (Party, Option<usize>, Option<Whose>);

#[derive(Default)]
struct Sum<'a> {
    nanos: Nanos,
    clients: HashSet<&'a str>,
    requests: u64,
    longest: Nanos,
    most: Option<(Ask, Place)>,
}

/// Whom to ask about most of the time of some front requests.
pub fn hop_ask(fronts: impl Iterator<Item = Place>, legs: &Legs, answer: &Answer) -> Option<HopAsk> {
    let mut sums: HashMap<Known, Sum<'_>> = HashMap::new();
    for place in fronts {
        let ask = match legs.of(place.0, place.1).and_then(|said| said.ask) {
            Some(ask) => ask,
            None => continue,
        };
        let party = match ask.party {
            Some(party) => party,
            None => continue,
        };
        let of = ask.of.unwrap_or(place);
        let known = match party {
            Party::Client => (party, Some(of.0), None),
            Party::Proxy => (party, None, Some(ask.whose)),
            Party::Upstream => (party, None, None),
        };
        let sum = sums.entry(known).or_default();
        sum.nanos += ask.nanos;
        if ask.of.is_some() || party != Party::Client {
            sum.requests += 1;
            sum.longest = sum.longest.max(ask.nanos);
            sum.clients.extend(answer.connections.get(place.0).map(|said| said.client.as_str()));
        }
        if sum.most.map_or(true, |most| (most.0.of.is_some(), most.0.nanos) < (ask.of.is_some(), ask.nanos)) {
            sum.most = Some((ask, of));
        }
    }
    let (_, sum) = sums.into_iter().max_by_key(|(known, sum)| (sum.nanos, std::cmp::Reverse(*known)))?;
    let (ask, of) = sum.most?;
    let ask = Ask { nanos: sum.nanos, ..ask };
    Some(HopAsk { ask, of, requests: sum.requests, clients: sum.clients.len() as u64, longest: sum.longest })
}

#[cfg(test)]
mod tests {
    use super::*;

    const MS: Nanos = 1_000_000;

    fn asked(parts: &[(Nanos, Whose, Option<Place>)]) -> Option<(Whose, Option<Party>, Nanos, Option<Place>)> {
        let mut at = 0;
        let parts: Vec<Part> = parts
            .iter()
            .map(|(nanos, whose, behind)| {
                at += nanos * MS;
                Part { begin: at - nanos * MS, end: at, whose: *whose, behind: *behind }
            })
            .collect();
        let mut sums: Vec<(Whose, Nanos)> = Vec::new();
        for part in &parts {
            match sums.iter_mut().find(|sum| sum.0 == part.whose) {
                Some(sum) => sum.1 += part.end - part.begin,
                None => sums.push((part.whose, part.end - part.begin)),
            }
        }
        ask_of(&parts, &sums, at).map(|ask| (ask.whose, ask.party, ask.nanos / MS, ask.of))
    }

    #[test]
    fn the_one_with_most_is_asked() {
        let proxy = [(30, Whose::ProxyHeld, None), (31, Whose::ProxyStall, None), (50, Whose::Client, None)];
        assert_eq!(asked(&proxy), Some((Whose::ProxyStall, Some(Party::Proxy), 61, None)));
        assert_eq!(asked(&[(9, Whose::Client, None)]), None, "too short");
        let many = Whose::Client;
        assert_eq!(asked(&[(90, Whose::Front, None), (20, many, None)]), Some((Whose::Front, None, 90, None)));
        assert_eq!(asked(&[(90, Whose::Unseen, None), (20, many, None)]), None);
    }

    #[test]
    fn another_ones_client_or_upstream() {
        let held = [(30, Whose::OtherHeld, Some((1, 0))), (40, Whose::OtherHeld, Some((2, 5)))];
        assert_eq!(asked(&held), Some((Whose::OtherHeld, Some(Party::Client), 70, Some((2, 5)))));
        let upload = [(30, Whose::OtherUpload, Some((1, 0)))];
        assert_eq!(asked(&upload), Some((Whose::OtherUpload, Some(Party::Upstream), 30, Some((1, 0)))));
    }
}
