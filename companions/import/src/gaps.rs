//! Connections whose beginning was captured, and of which bytes are missing. From the first packet behind a hole on
//! their packets wait: if it is not filled, the connection goes on behind it as one that is joined (docs/MAP.md, 4).

use captures::{flags, Arrival, Ends, Segment};
use joined::Unjoined;
use tls::CLIENT;

use crate::listener::Sender;
use crate::reach::{Cut, Reach};
use crate::table::Taken;

/// So many pieces behind holes are followed, of all connections together.
const MOST_PIECES: usize = 1 << 16;

/// What is known of a connection.
struct Open {
    ends: Ends,
    reach: Reach,
    /// The hole of which packets wait.
    hole: Option<usize>,
    last: u64,
    /// Where it would go on, if there were not too many holes.
    given_up: Option<Cut>,
}

/// All connections, by their numbers.
#[derive(Default)]
pub struct Gaps {
    connections: Vec<Open>,
    /// The connection of each hole, as long as it is not filled.
    holes: Vec<Option<u32>>,
    pieces: usize,
}

/// A connection with a hole that was not filled.
pub struct Gap {
    /// The number of the hole, by which its packets wait.
    pub hole: usize,
    pub connection: usize,
    /// The endpoints, the client's first.
    pub ends: Ends,
    pub cuts: Vec<Cut>,
    /// Its last packet.
    pub last: u64,
    /// Why it does not go on, if that is known.
    pub why: Option<Unjoined>,
}

impl Gaps {
    /// Takes a segment of a connection, and answers by which hole it waits, if it does.
    #[inline]
    pub fn take(&mut self, taken: &Taken, arrival: Arrival, segment: &Segment<'_>) -> Option<usize> {
        let Taken { sender: Sender { connection, side }, opens } = *taken;
        if opens {
            let (ends, reach) = (segment.ends, Reach::default());
            self.connections.push(Open { ends, reach, hole: None, last: 0, given_up: None });
        }
        let open = self.connections.get_mut(connection)?;
        if segment.flags & flags::SYN != 0 && (side == CLIENT || segment.flags & flags::ACK != 0) {
            open.reach.begin(side, segment.sequence);
        }
        let before = open.reach.pieces();
        open.reach.take(side, arrival, segment);
        match open.reach.pieces() {
            0 if before == 0 => None,
            after => self.with_holes(connection, arrival, before, after),
        }
    }

    fn with_holes(&mut self, connection: usize, arrival: Arrival, before: usize, after: usize) -> Option<usize> {
        let open = &mut self.connections[connection];
        self.pieces = self.pieces - before + after;
        if after == 0 {
            open.hole.take().into_iter().for_each(|hole| self.holes[hole] = None);
            return None;
        }
        if self.pieces > MOST_PIECES {
            self.pieces -= after;
            open.given_up = std::mem::take(&mut open.reach).cuts().first().copied();
        }
        open.last = arrival.packet;
        if open.hole.is_none() {
            open.hole = Some(self.holes.len());
            self.holes.push(Some(connection as u32));
        }
        open.hole.filter(|_| open.given_up.is_none())
    }

    /// What was not filled.
    pub fn finish(self) -> Vec<Gap> {
        let Gaps { mut connections, holes, .. } = self;
        let numbers = holes.into_iter().enumerate().filter_map(|(hole, one)| Some((hole, one? as usize)));
        let gap = |(hole, connection): (usize, usize)| {
            let Open { ends, reach, last, given_up, .. } = &mut connections[connection];
            let why = match given_up {
                Some(_) => Some(Unjoined::ManyGaps),
                None => reach.is_snapped().then_some(Unjoined::Snapped),
            };
            let cuts = given_up.map_or_else(|| reach.cuts(), |cut| vec![cut]);
            Gap { hole, connection, ends: *ends, cuts, last: *last, why }
        };
        numbers.map(gap).collect()
    }
}
