//! What requests asked for that are open across a gap (docs/WHY.md, 13): their streams' numbers are used once
//! (RFC 9113, 5.1.1), so what was read of one before the gap holds behind it.

use std::collections::HashMap;

use import::{Behind, Summary};
use joined::Inferred;

use crate::answer::Requests;
use crate::stream::{RequestFields, Stream};

/// The streams that are open behind a gap, by the numbers of connections; and what each asked for, once that was read.
#[derive(Default)]
pub struct Across {
    streams: HashMap<usize, HashMap<u32, Option<RequestFields>>>,
}

/// The connection behind whose gap another one stands.
pub fn root_of(summary: &Summary, number: usize) -> Option<usize> {
    let at = summary.joined.binary_search_by_key(&number, |one| one.connection).ok()?;
    match summary.joined.get(at)?.behind {
        Behind::Gap(root) => Some(root),
        Behind::No | Behind::First => None,
    }
}

impl Across {
    /// What follows a gap of a connection has these streams open.
    pub fn note(&mut self, root: usize, inferred: &Inferred) {
        self.streams.entry(root).or_default().extend(inferred.open.iter().map(|stream| (*stream, None)));
    }

    /// Takes the requests of a connection with gaps, or of what follows one. Who read a request first counts: behind a
    /// gap less is known of what fields refer to.
    pub fn take(&mut self, root: usize, requests: &Requests) {
        let streams = match self.streams.get_mut(&root) {
            Some(streams) => streams,
            None => return,
        };
        let mut room = Stream::empty();
        for index in 0.. {
            if requests.outline(index, &mut room).is_none() {
                break;
            }
            if let Some(known) = streams.get_mut(&room.number).filter(|known| known.is_none()) {
                *known = room.request.filter(|asked| !asked.is_empty);
            }
        }
    }

    /// What the requests asked for that what follows a gap has open, as far as it is known.
    pub fn asked(&self, root: usize, inferred: &Inferred) -> HashMap<u32, RequestFields> {
        let streams = match self.streams.get(&root) {
            Some(streams) => streams,
            None => return HashMap::new(),
        };
        inferred.open.iter().filter_map(|stream| Some((*stream, (*streams.get(stream)?)?))).collect()
    }
}
