//! What an import tells of the original while it is made, kept in memory.

use std::ffi::OsStr;

use import::{Addresses, Became as Outcome, Listener, Record, Summary};
use programs::{temporary_failure, Failure};

use crate::original::{Became, Joined, Original, OriginalConnection, Other, SideRead, Unopened};

/// A map that is kept in memory.
#[derive(Default)]
pub struct Keeping {
    pub original: Original,
    addresses: Addresses,
    failure: Option<Failure>,
    /// Whether the report has connections of which something is inferred.
    pub shows_joined: bool,
}

impl Listener for Keeping {
    fn begin_file(&mut self, _path: &OsStr, _packets_before: u64) {}

    fn address(&mut self, stand_in: [u8; 4], original: [u8; 16]) {
        let original = self.addresses.add(stand_in, original).to_string();
        self.original.add_address(stand_in, original);
    }

    fn record(&mut self, record: &Record<'_>) {
        self.original.add_record(record.arrival.packet);
    }

    fn passed(&mut self, packet: u64, why: &str) {
        if let (Err(error), None) = (self.original.add_passed(packet, why), &self.failure) {
            self.failure = Some(temporary_failure(&error));
        }
    }

    fn finish(&mut self, summary: &Summary) {
        self.original.capture = summary.counts;
        self.original.back = summary.times_go_back();
        let others = summary.others.iter();
        self.original.others = others.map(|one| Other { name: one.kind.name().into(), packets: one.packets }).collect();
        for outcome in &summary.outcomes {
            let became = match &outcome.became {
                Outcome::Clear => Became::Clear,
                Outcome::Refused(why) => Became::Refused(why.to_string()),
                Outcome::Read(read) => Became::Read([side_of(&read.client), side_of(&read.server)]),
            };
            let (fragments, last) = (outcome.fragments, Some(outcome.last.nanos));
            self.original.add_connection(outcome.opening, OriginalConnection { became, fragments, last });
        }
        if self.shows_joined {
            self.note_joined(summary);
        }
    }

    fn begin_anew(&mut self) -> Result<(), Failure> {
        *self = Keeping { shows_joined: self.shows_joined, ..Keeping::default() };
        Ok(())
    }

    fn take_failure(&mut self) -> Option<Failure> {
        self.failure.take()
    }
}

impl Keeping {
    /// What the report of the original says of connections that were joined.
    fn note_joined(&mut self, summary: &Summary) {
        for one in &summary.joined {
            if let Some(outcome) = summary.outcomes.get(one.connection) {
                let joined = Joined::of(&one.how, one.bytes, one.is_one_way, import::joined_lines(one));
                self.original.add_joined(outcome.opening, joined);
            }
        }
        for pair in &summary.unopened {
            let known = Unopened { segments: pair.segments, fate: None };
            self.original.add_unopened(self.addresses.endpoints(&pair.ends), known);
        }
    }
}

fn side_of(side: &import::SideRead) -> SideRead {
    SideRead { has_gap: side.has_gap, tail: side.tail as u64, end: side.end.to_string() }
}
