//! Connections that go on behind gaps of others, and are told as these are.

use std::collections::{HashMap, HashSet};

use reports::Side;

use crate::answer::{Behind, ConnectionSaid, FaultSaid};
use crate::building::Made;

/// How many of what was told go on behind gaps of each connection.
#[derive(Default)]
pub(super) struct Roots {
    turns: HashMap<usize, u32>,
}

impl Roots {
    /// Behind which connection's gap a joined one stands, of those that were told before.
    pub(super) fn behind(&mut self, made: &Made, told: &[ConnectionSaid], number: usize) -> Behind {
        let joined = made.summary.joined.binary_search_by_key(&number, |one| one.connection).ok();
        match joined.and_then(|at| made.summary.joined.get(at)).map(|one| one.behind) {
            Some(import::Behind::Gap(root)) => match made.places.get(root).copied().flatten() {
                Some(place) => {
                    let turn = self.turns.entry(root).or_default();
                    *turn += 1;
                    Behind::Gap { connection: told[place].number, turn: *turn }
                }
                None => Behind::First,
            },
            Some(import::Behind::First) => Behind::First,
            Some(import::Behind::No) | None => Behind::No,
        }
    }
}

pub(super) fn behind(said: &ConnectionSaid) -> Option<u64> {
    said.joined.as_ref().and_then(|joined| joined.behind.connection())
}

/// What a fault is known by.
fn key_of(fault: &FaultSaid) -> (u64, String, Side, u64) {
    (fault.at.packet, fault.finding.kind.name().to_string(), fault.finding.side, fault.finding.stream)
}

/// A fault that the report shows of a connection is not told again of what follows its gap.
pub(super) fn tell_faults_once(connections: &mut [ConnectionSaid]) {
    let roots: HashSet<u64> = connections.iter().filter_map(behind).collect();
    let with_gaps = connections.iter().filter(|one| roots.contains(&one.number));
    let told = with_gaps.flat_map(|one| one.faults.iter().map(move |fault| (one.number, key_of(fault))));
    let told: HashSet<_> = told.collect();
    for one in connections.iter_mut() {
        if let Some(root) = behind(one) {
            one.faults.retain(|fault| !told.contains(&(root, key_of(fault))));
        }
    }
}
