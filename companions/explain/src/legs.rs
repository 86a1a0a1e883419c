//! Both legs of a proxy: which back request carried which front one, whose each instant was, and what was passed on
//! (docs/WHY.md, 14).

mod account;
#[cfg(test)]
pub mod account_rules;
mod asking;
mod brakes;
mod candidates;
mod collecting;
mod course;
mod facts;
mod gathering;
mod hops;
mod others;
mod pairs;
pub mod print;
pub mod said;
mod telling;

use programs::{temporary_failure, Failure, Progress};

use crate::answer::Answer;
use crate::building::Made;
pub use crate::legs::account::{LegKnown, Lived, Sent};
use crate::legs::candidates::Search;
use crate::legs::collecting::collected;
pub use crate::legs::collecting::Partials;
pub use crate::legs::facts::Brief;
use crate::legs::gathering::Gathering;
use crate::legs::hops::hops_of;
use crate::legs::pairs::pairs_of;
use crate::legs::said::Legs;
use crate::legs::telling::Telling;

/// Whether requests went to two listeners, without which none stands behind another.
pub fn may_have_hops(answer: &Answer) -> bool {
    let mut audited = answer.audited();
    let first = audited.next().map(|one| &one.server);
    audited.any(|one| Some(&one.server) != first)
}

/// All that is said of both legs. This program shows how far it is.
pub fn legs_of(program: &str, answer: &Answer, made: &mut Made, partial: &Partials) -> Result<Legs, Failure> {
    let mut gathering = Gathering::new(answer);
    let hops = hops_of(gathering.wholes());
    if hops.is_empty() {
        return Ok(Legs::default());
    }
    let reader = made.log.reader().map_err(|error| temporary_failure(&error))?;
    let _explaining = Progress::begin(program, "explaining both legs", Some(reader.size()));
    let is_of_hop = |listener: usize| hops.iter().any(|hop| hop.front == listener || hop.back == listener);
    let facts = gathering.facts(is_of_hop);
    let is_wanted = |connection: usize| facts.connections.get(connection).map_or(false, |one| is_of_hop(one.listener));
    let courses = collected(&facts, is_wanted, reader, &made.places, partial)?;
    let pairs = pairs_of(&facts, Search::new(&facts, &courses, &hops).found(&hops));
    Ok(Telling { answer, facts: &facts, courses: &courses, hops: &hops, pairs: &pairs }.told())
}
