//! How far keys of TLS 1.3 without its hellos are searched for, and what is said if that was not enough.

use joined::Unjoined;
use tls::{Reason, Search};

use crate::budget::MOST_WAITING;
use crate::outcomes::{Became, End, Fate, NotJoined, Outcome, Summary, Unopened};

const MEBIBYTES: usize = MOST_WAITING >> 20;

/// For all connections together, as [`Search`] has it.
#[derive(Clone, Copy, Debug)]
pub struct Bounds {
    /// Records of higher numbers, counted from the last key update before them, are not found.
    pub numbers: u64,
    pub seconds: u64,
}

impl Default for Bounds {
    fn default() -> Bounds {
        let Search { numbers, seconds, .. } = Search::default();
        Bounds { numbers, seconds }
    }
}

impl Bounds {
    pub(crate) fn search(&self) -> Search {
        Search::new(self.numbers, self.seconds)
    }

    /// What is said of connections of which something was not opened within these bounds.
    pub(crate) fn said(&self, summary: &Summary) -> Vec<String> {
        let Bounds { numbers, seconds } = *self;
        let by_numbers =
            (Reason::SearchedNumbers(numbers), format!("by record numbers below {numbers} (--join-numbers)"));
        let by_seconds = (Reason::SearchedSeconds(seconds), format!("within {seconds} s (--join-seconds)"));
        let counted = [by_numbers, by_seconds].into_iter().map(|(why, how)| (count_of(summary, why), how));
        let said = counted.filter(|(count, _)| *count > 0).map(|(count, how)| {
            let many = if count == 1 { "" } else { "s" };
            format!("{count} connection{many} of TLS from before the capture not wholly opened {how}")
        });
        said.chain(given_up(summary)).collect()
    }
}

/// What is said of those that were given up, since too much waited of all together.
fn given_up(summary: &Summary) -> Option<String> {
    let fates = summary.unopened.iter().map(|pair| pair.fate).chain(summary.gaps.iter().map(|gap| gap.fate));
    let is_given_up = |fate: &Fate| *fate == Fate::Unjoined(NotJoined::Frames(Unjoined::ManyWaiting));
    let count = fates.filter(is_given_up).count();
    let many = if count == 1 { "" } else { "s" };
    (count > 0).then(|| format!("{count} connection{many} not joined, since more than {MEBIBYTES} MiB of all waited"))
}

/// How many connections that began before the capture, or a side of theirs, were not opened for this reason.
fn count_of(summary: &Summary, why: Reason) -> usize {
    let is_whole = |pair: &&Unopened| matches!(pair.fate, Fate::Unjoined(NotJoined::Tls(reason)) if reason == why);
    let is_side = |outcome: &&Outcome| match &outcome.became {
        Became::Read(read) => [read.client.end, read.server.end].contains(&End::Stopped(why)),
        Became::Clear | Became::Refused(_) => false,
    };
    summary.unopened.iter().filter(is_whole).count() + summary.outcomes.iter().filter(is_side).count()
}
