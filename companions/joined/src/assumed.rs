//! What is assumed of windows, and how sure that is.

use cutter::{Nanos, FIRST_CREDIT, MOST_CREDIT};

use crate::course::JoinedCourse;
use crate::evidence::{Evidence, LIKELY, OF_WINDOWS, STRONG};
use crate::usual::is_window;
use crate::windows::{lent_by, weighed, Sender, Weighed};

/// So many bytes may have to be made to bring credits down.
const MOST_MADE: i64 = 1 << 24;

#[derive(Clone, Copy, Debug, PartialEq, Eq, PartialOrd, Ord)]
pub enum What {
    Connection,
    /// The initial window of streams that open.
    Initial,
    /// A stream that was open.
    Stream(u32),
}

/// How sure a credit is.
#[derive(Clone, Copy, Debug, PartialEq, Eq)]
pub enum Grade {
    /// 16 bits or more.
    Strong,
    /// 8 bits or more.
    Likely,
    /// This window or the other one that is named.
    Either,
    /// It was passed, and the other side answered FLOW_CONTROL_ERROR.
    Broken,
    /// It was no less: nothing is claimed.
    Bound,
}

impl Grade {
    const ALL: [Grade; 5] = [Grade::Strong, Grade::Likely, Grade::Either, Grade::Broken, Grade::Bound];

    /// What a word of the map says.
    pub fn of(word: &str) -> Option<Grade> {
        Grade::ALL.into_iter().find(|grade| grade.word() == word)
    }

    /// As the map says it.
    pub fn word(self) -> &'static str {
        match self {
            Grade::Strong => "strong",
            Grade::Likely => "likely",
            Grade::Either => "either",
            Grade::Broken => "broken",
            Grade::Bound => "bound",
        }
    }
}

/// What is assumed of one window of a side, in bytes.
#[derive(Clone, Copy, Debug, PartialEq, Eq)]
pub struct Assumed {
    /// The side that sends through it: 0 is the client.
    pub side: usize,
    pub what: What,
    /// The credit with which it begins, and the least that breaks no rule.
    pub credit: i64,
    pub least: i64,
    pub grade: Grade,
    pub bits: u32,
    /// So often its sender came to its bound, paused, and went on after a grant; and the longest of these pauses.
    pub touches: u32,
    pub pause: Nanos,
    /// The other window, of [`Grade::Either`].
    pub with: Option<What>,
}

/// The credits with which a side's windows begin.
#[derive(Clone, Debug, Default)]
pub struct Credits {
    pub connection: i64,
    pub initial: i64,
    /// The streams that were open, in rising order.
    pub streams: Vec<(u32, i64)>,
    pub assumed: Vec<Assumed>,
}

/// Credits of a flow, which a side sends. Where nothing may be claimed, all are bounds.
pub fn credits_of(course: &mut JoinedCourse, flow: usize, side: usize, may_claim: bool) -> Credits {
    let sender = &mut course.senders[flow];
    let mut open: Vec<Open> = course.streams.open().map(|(id, stream)| Open::of(id, &stream.windows[flow])).collect();
    open.iter_mut().for_each(|one| one.add_bits(sender));
    add_bits_of_windows(sender);
    let concluding = Concluding { side, may_claim, sender: &*sender };
    let mut made = 0;
    let mut credits = Credits::default();
    let of_connection = concluding.connection(&open);
    credits.connection = of_connection.map_or(FIRST_CREDIT, |found| found.credit);
    made += (FIRST_CREDIT - credits.connection).max(0);
    let initial = concluding.initial();
    credits.initial = initial.map_or_else(|| free_initial(&concluding, &open), |found| found.credit);
    credits.assumed.extend(of_connection);
    credits.assumed.extend(initial);
    for one in &open {
        let found = concluding.open_stream(one, credits.initial);
        let unclaimed = concluding.without_stall(one, credits.initial);
        let (credit, assumed) = match found {
            None => (unclaimed, None),
            Some(found) => within(found, [credits.initial, unclaimed], &mut made),
        };
        credits.streams.push((one.id, credit));
        credits.assumed.extend(assumed);
    }
    credits
}

/// Where too much would have to be made to bring a credit down, nothing is claimed.
fn within(mut found: Assumed, [initial, unclaimed]: [i64; 2], made: &mut i64) -> (i64, Option<Assumed>) {
    let needed = (initial - found.credit).max(0);
    if found.grade == Grade::Bound || *made + needed > MOST_MADE {
        found.grade = Grade::Bound;
        found.with = None;
        found.credit = found.credit.max(unclaimed);
    } else {
        *made += needed;
    }
    (found.credit, Some(found))
}

/// An initial window that nothing depends on: the least credit of streams that were open, so that little is made up.
fn free_initial(concluding: &Concluding<'_>, open: &[Open]) -> i64 {
    let found =
        open.iter().filter_map(|one| concluding.open_stream(one, 0)).filter(|found| found.grade != Grade::Bound);
    found.map(|found| found.credit.max(0)).min().unwrap_or(FIRST_CREDIT).min(FIRST_CREDIT)
}

/// A stream that was open.
struct Open {
    id: u32,
    evidence: [Evidence; 2],
    is_refused: bool,
    /// The least that grants and content made of its credit, beside the beginning.
    least: i64,
}

impl Open {
    fn of(id: u32, window: &crate::windows::BoundedWindow) -> Open {
        let evidence = window.open().cloned().unwrap_or_default();
        Open { id, evidence, is_refused: window.is_refused, least: window.least() }
    }

    /// Where all contents, or the bound, are 2^k - 1 bytes, the stream's window is the likely reason. If the
    /// connection's bound is so too, as 65,535 is where it begins, either may be.
    fn add_bits(&mut self, sender: &Sender) {
        for evidence in self.evidence.iter_mut().filter(|one| one.touches > 0) {
            evidence.alone = evidence.if_one_is_little(evidence.alone);
            if !sender.are_windows() && are_both_windows(evidence, &sender.connection) {
                evidence.shared += OF_WINDOWS;
                evidence.lent += OF_WINDOWS;
            } else if sender.are_windows() || is_bound_of_window(evidence) {
                evidence.alone += OF_WINDOWS;
            }
        }
    }
}

fn is_bound_of_window(evidence: &Evidence) -> bool {
    evidence.least().map_or(false, is_window)
}

/// Whether the bounds of both are those of windows, in the same pauses.
fn are_both_windows(evidence: &Evidence, connection: &Evidence) -> bool {
    is_bound_of_window(evidence) && is_bound_of_window(connection) && evidence.of_turn == connection.turn
}

/// Adds these bits to the window of streams that opened since, as `Open::add_bits` does for one that was open.
fn add_bits_of_windows(sender: &mut Sender) {
    let are_windows = sender.are_windows() && sender.initial.touches > 0;
    let (initial, connection) = (&mut sender.initial, &sender.connection);
    if !are_windows && are_both_windows(initial, connection) {
        initial.shared += OF_WINDOWS;
        initial.lent += OF_WINDOWS;
    } else if are_windows || is_bound_of_window(initial) {
        initial.alone += OF_WINDOWS;
    }
}

struct Concluding<'a> {
    side: usize,
    may_claim: bool,
    sender: &'a Sender,
}

/// What else is known of a window.
struct About {
    what: What,
    weighed: Weighed,
    with: What,
    is_refused: bool,
    /// Its credit is no less than this, at the beginning.
    floor: i64,
}

impl Concluding<'_> {
    fn connection(&self, open: &[Open]) -> Option<Assumed> {
        let connection = &self.sender.connection;
        let partners = open.iter().flat_map(|one| one.evidence.iter().map(|evidence| (What::Stream(one.id), evidence)));
        let partners = partners.chain([(What::Initial, &self.sender.initial)]);
        let lent: Vec<_> = partners.map(|(what, evidence)| (lent_by(connection, evidence), what)).collect();
        let most = lent.iter().copied().fold((0.0, What::Initial), |most, one| if one.0 > most.0 { one } else { most });
        let shared = lent.iter().map(|(bits, _)| bits).sum();
        let about = About {
            what: What::Connection,
            weighed: Weighed { alone: connection.if_one_is_little(connection.alone), shared },
            with: most.1,
            is_refused: self.sender.is_refused,
            floor: FIRST_CREDIT,
        };
        let mut found = self.concluded(connection, &about)?;
        if found.grade != Grade::Bound {
            found.credit = found.credit.max(0);
        }
        Some(found)
    }

    fn initial(&self) -> Option<Assumed> {
        let about = About {
            what: What::Initial,
            weighed: weighed(&self.sender.initial, &self.sender.connection),
            with: What::Connection,
            is_refused: self.sender.is_initial_refused,
            floor: 1,
        };
        let mut found = self.concluded(&self.sender.initial, &about)?;
        found.credit = found.credit.clamp(0, MOST_CREDIT);
        Some(found)
    }

    /// The credit of a stream that was open with which no stall shows, whatever settings were seen.
    fn without_stall(&self, open: &Open, initial: i64) -> i64 {
        let lowered = self.sender.least_in_force.map_or(0, |least| (initial - least).max(0));
        initial.max(1 - open.least + lowered).min(MOST_CREDIT)
    }

    /// What is assumed of a stream that was open, by the evidence before or after the initial window changed, whichever
    /// asks for more credit.
    fn open_stream(&self, open: &Open, initial: i64) -> Option<Assumed> {
        let of = |at: usize, floor: i64| {
            let mut weighed = weighed(&open.evidence[at], &self.sender.connection);
            weighed.shared = open.evidence[at].if_one_is_little(weighed.shared);
            let is_refused = open.is_refused && (at == 1) == self.sender.has_changed();
            let about = About { what: What::Stream(open.id), weighed, with: What::Connection, is_refused, floor };
            self.concluded(&open.evidence[at], &about)
        };
        let before = of(0, 1);
        let after = of(1, i64::MIN).map(|mut found| {
            found.credit = found.credit.saturating_add(initial);
            found.least = found.least.saturating_add(initial);
            found
        });
        let found = match (before, after) {
            (Some(before), Some(after)) if before.credit >= after.credit => Some(before),
            (before, after) => after.or(before),
        };
        found.map(|mut found| {
            found.credit = found.credit.clamp(-MOST_CREDIT, MOST_CREDIT);
            found
        })
    }

    /// What is assumed of a window that was used.
    fn concluded(&self, evidence: &Evidence, about: &About) -> Option<Assumed> {
        let least = evidence.least()?;
        let Weighed { alone, shared } = about.weighed;
        let (mut credit, mut bits) = (least, alone);
        let mut grade = match () {
            () if !self.may_claim => Grade::Bound,
            () if about.is_refused => {
                credit = evidence.passed.map_or(-evidence.before, |(low, _)| -low);
                Grade::Broken
            }
            () if alone >= LIKELY => by_bits(alone),
            () if alone + shared >= LIKELY => {
                bits = alone + shared;
                Grade::Either
            }
            () if evidence.silent >= LIKELY && least <= 0 => {
                (credit, bits) = (0, evidence.silent);
                if evidence.is_silent_shared {
                    Grade::Either
                } else {
                    by_bits(bits)
                }
            }
            () => Grade::Bound,
        };
        if grade != Grade::Bound && credit > MOST_CREDIT {
            grade = Grade::Bound;
        }
        if grade == Grade::Bound {
            credit = least.saturating_add(1).max(about.floor);
        }
        Some(Assumed {
            side: self.side,
            what: about.what,
            credit,
            least,
            grade,
            bits: bits as u32,
            touches: evidence.touches,
            pause: evidence.longest,
            with: (grade == Grade::Either).then_some(about.with),
        })
    }
}

fn by_bits(bits: f64) -> Grade {
    if bits >= STRONG {
        Grade::Strong
    } else {
        Grade::Likely
    }
}
