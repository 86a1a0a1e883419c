//! Two captures of the same work, before and after a change: their requests matched by method, path and turn.

use std::collections::{BTreeMap, HashMap};
use std::rc::Rc;

use explain::answer::{CauseKind, Nanos, Request, Share};

use crate::summing::{is_held, SummedConnection, Whole};

/// A request is better or worse where its stalls changed by 1 ms and by 1 % of the longer life, at least.
const LEAST: u128 = 1_000_000;
const SHARE: u128 = 100;
/// A life is longer by 1 ms and a tenth of the shorter one, at least.
const LIFE_SHARE: u128 = 10;

/// The method and the path of a request.
type Key = (Option<Rc<str>>, Option<Rc<str>>);

/// A request of one capture, which is read again where it is shown.
#[derive(Clone)]
pub struct One<'a> {
    pub name: Rc<str>,
    pub connection: &'a SummedConnection<'a>,
    index: usize,
    pub nanos: Nanos,
    pub stalled: Nanos,
    pub tcp: Nanos,
    pub is_held: bool,
    pub is_hung: bool,
    pub status: Option<u32>,
}

/// A request before and after; none where it is new or gone. It is the `turn`th of `of` with its name.
pub struct Pair<'a> {
    pub name: Rc<str>,
    pub method: Option<Rc<str>>,
    pub path: Option<Rc<str>>,
    pub turn: usize,
    pub of: usize,
    pub before: Option<One<'a>>,
    pub after: Option<One<'a>>,
}

/// Who broke which rule, how often before, and after.
pub struct Broken {
    pub broke: &'static str,
    pub kind: String,
    pub before: u64,
    pub after: u64,
}

pub struct Compared<'a> {
    pub before: &'a Whole<'a>,
    pub after: &'a Whole<'a>,
    pub pairs: Vec<Pair<'a>>,
    /// How many have no name, before and after.
    pub unnamed: [usize; 2],
    pub faults: Vec<Broken>,
}

/// The requests of a name, in the order in which they were opened.
struct Named<'a> {
    key: Key,
    before: Vec<One<'a>>,
    after: Vec<One<'a>>,
}

impl<'a> One<'a> {
    fn new(name: Rc<str>, connection: &'a SummedConnection<'a>, index: usize, request: &Request) -> One<'a> {
        One {
            name,
            connection,
            index,
            nanos: request.nanos(),
            stalled: request.stalled(),
            tcp: request.sides.iter().map(|said| said.shares[Share::Tcp as usize]).max().unwrap_or(0),
            is_held: is_held(request) || request.cause.kind == CauseKind::Tcp,
            is_hung: request.is_hung,
            status: request.status,
        }
    }

    pub fn request(&self) -> Option<Request> {
        self.connection.said.requests.get(self.index)
    }
}

impl<'a> Pair<'a> {
    /// The request before and after, where both are there.
    pub fn both(&self) -> Option<(&One<'a>, &One<'a>)> {
        self.before.as_ref().zip(self.after.as_ref())
    }

    /// Less where stalls became less, greater where they became more.
    pub fn change(&self) -> std::cmp::Ordering {
        let (before, after) = match self.both() {
            Some(both) => both,
            None => return std::cmp::Ordering::Equal,
        };
        let more = u128::from(after.stalled.abs_diff(before.stalled));
        let life = u128::try_from(before.nanos.max(after.nanos)).unwrap_or(0);
        if more < LEAST || more * SHARE < life {
            return std::cmp::Ordering::Equal;
        }
        after.stalled.cmp(&before.stalled)
    }

    /// Less where the life became shorter, greater where it became longer.
    pub fn life_change(&self) -> std::cmp::Ordering {
        let (before, after) = match self.both() {
            Some(both) => (both.0.nanos, both.1.nanos),
            None => return std::cmp::Ordering::Equal,
        };
        let more = u128::from(after.abs_diff(before));
        let shorter = u128::try_from(before.min(after)).unwrap_or(0);
        if more < LEAST || more * LIFE_SHARE < shorter {
            return std::cmp::Ordering::Equal;
        }
        after.cmp(&before)
    }

    /// By how much the life became longer, where it did.
    pub fn growth(&self) -> Nanos {
        match self.life_change() {
            std::cmp::Ordering::Greater => self.both().map_or(0, |(before, after)| after.nanos - before.nanos),
            _ => 0,
        }
    }

    pub fn trouble(&self) -> Nanos {
        self.before.iter().chain(&self.after).map(|one| one.stalled).max().unwrap_or(0)
    }
}

impl<'a> Compared<'a> {
    pub fn new(before: &'a Whole<'a>, after: &'a Whole<'a>) -> Compared<'a> {
        let (mut all, mut places, mut unnamed) = (Vec::<Named<'_>>::new(), HashMap::<Key, usize>::new(), [0; 2]);
        for (when, whole) in [before, after].into_iter().enumerate() {
            let (named, without) = in_order(whole);
            unnamed[when] = without;
            for (key, one) in named {
                let place = *places.entry(key).or_insert_with_key(|key| {
                    all.push(Named { key: key.clone(), before: Vec::new(), after: Vec::new() });
                    all.len() - 1
                });
                let some = if when == 0 { &mut all[place].before } else { &mut all[place].after };
                some.push(one);
            }
        }
        let pairs = all.iter().flat_map(pairs_of).collect();
        Compared { before, after, pairs, unnamed, faults: faults_of(before, after) }
    }

    pub fn in_both(&self) -> impl Iterator<Item = (&One<'a>, &One<'a>)> {
        self.pairs.iter().filter_map(Pair::both)
    }

    /// How long those in both stood still, before and after.
    pub fn stalled(&self) -> [Nanos; 2] {
        self.in_both().fold([0, 0], |[some, others], (before, after)| [some + before.stalled, others + after.stalled])
    }
}

/// The requests of an answer that have names, in the order in which they were opened; and how many have none.
fn in_order<'a>(whole: &'a Whole<'a>) -> (Vec<(Key, One<'a>)>, usize) {
    let (mut all, mut unnamed) = (Vec::new(), 0);
    for connection in whole.audited() {
        for (index, request) in connection.said.requests.iter().enumerate() {
            let order = (request.opened.time, connection.said.number, request.opened.frame);
            match request.name.clone().filter(|name| !name.is_empty()) {
                Some(name) => {
                    let one = One::new(name, connection, index, &request);
                    all.push((order, ((request.method, request.path), one)));
                }
                None => unnamed += 1,
            }
        }
    }
    all.sort_by_key(|(order, _)| *order);
    (all.into_iter().map(|(_, found)| found).collect(), unnamed)
}

fn pairs_of<'a, 'b>(named: &'b Named<'a>) -> impl Iterator<Item = Pair<'a>> + 'b {
    let of = named.before.len().max(named.after.len());
    (0..of).filter_map(move |turn| {
        let (before, after) = (named.before.get(turn).cloned(), named.after.get(turn).cloned());
        let name = before.as_ref().or(after.as_ref())?.name.clone();
        let (method, path) = named.key.clone();
        Some(Pair { name, method, path, turn: turn + 1, of, before, after })
    })
}

fn faults_of(before: &Whole<'_>, after: &Whole<'_>) -> Vec<Broken> {
    let mut counts = BTreeMap::<(&'static str, String), [u64; 2]>::new();
    for (when, whole) in [before, after].into_iter().enumerate() {
        for fault in whole.answer.audited().flat_map(|one| &one.faults) {
            let finding = &fault.finding;
            let who = finding.who_broke_it().map_or("", |side| side.name());
            counts.entry((who, finding.kind.name().to_string())).or_default()[when] += 1;
        }
    }
    let rows = counts.into_iter();
    rows.map(|((broke, kind), [before, after])| Broken { broke, kind, before, after }).collect()
}
