//! A connection that is read from its middle on: its segments wait until it is known what opens its records.

use captures::Arrival;

use super::{Emit, Shared, TlsConnection};
use crate::middle::{Middle, Released, Settled};
use crate::reason::Reason;
use crate::{CLIENT, SERVER};

#[cfg(test)]
mod tests;

impl TlsConnection {
    /// A connection of TLS 1.3 whose bytes are there from any place on, also within a record. Which side is the
    /// client's need not be known: [`TlsConnection::client`] tells. Offsets count from each side's first byte.
    pub fn from_middle(number: u64, shared: &Shared) -> TlsConnection {
        TlsConnection { middle: Some(Box::default()), ..TlsConnection::new(number, shared) }
    }

    /// What this connection of TLS 1.3 is behind bytes that are lost, of one side or both: it is read from its middle
    /// on, by the secrets and from the numbers on that were reached. A side without a hole was read to its end, also
    /// what came behind the other one's: its numbers are looked for from the first on, and from some key updates before
    /// the last one. None where no application data of it was read.
    pub fn behind_loss(&self, number: u64, shared: &Shared) -> Option<TlsConnection> {
        let opens = |side: &usize| match self.is_whole[*side] {
            true => self.handshake.opened_from(*side),
            false => self.handshake.opens(*side),
        };
        let before: Vec<_> = [CLIENT, SERVER].iter().filter_map(opens).collect();
        let middle = (!before.is_empty()).then(|| Box::new(Middle::behind(before)))?;
        Some(TlsConnection { middle: Some(middle), ..TlsConnection::new(number, shared) })
    }

    /// Whether it can be read behind lost bytes.
    pub fn goes_on(&self) -> bool {
        [CLIENT, SERVER].iter().any(|side| self.handshake.opens(*side).is_some())
    }

    /// Lets go of what waits behind holes: nothing more of it is read.
    pub fn let_go(&mut self) {
        self.is_whole = [CLIENT, SERVER].map(|side| !self.sides[side].flow.has_hole());
        self.sides.iter_mut().for_each(|side| side.flow = Default::default());
    }

    /// The index of the client's side. If the connection is read from its middle on, the secret tells that.
    pub fn client(&self) -> Option<usize> {
        match &self.middle {
            Some(_) if !self.handshake.is_joined() => None,
            _ => Some(self.handshake.role(CLIENT)),
        }
    }

    /// Whether it is TLS: records follow each other, or one was opened. Hardly any other bytes look so.
    pub fn has_records(&self) -> bool {
        let tells = |why: Reason| !matches!(why, Reason::NotTls | Reason::Tail(_));
        let ended = || self.sides.iter().any(|side| side.end.map_or(false, |(why, _)| tells(why)));
        match (&self.middle, self.refused) {
            (_, Some(why)) => tells(why),
            (Some(middle), None) => middle.has_records() || ended(),
            (None, None) => true,
        }
    }

    /// Looks for what opens the sides that wait, where that is due, and goes on with what waited.
    pub(super) fn settle(&mut self, shared: &mut Shared, out: &mut dyn Emit, is_last: bool) {
        let mut middle = match self.middle.take() {
            Some(middle) if is_last || middle.is_due(shared.more_keys) => middle,
            middle => {
                self.middle = middle;
                return;
            }
        };
        let settled = middle.settle(shared, is_last);
        let released = middle.release(&settled);
        for (index, settled) in settled.into_iter().enumerate() {
            self.go_on(index, settled, released.begun[index]);
        }
        let waits = [CLIENT, SERVER].iter().any(|side| middle.waits(*side));
        if !waits && !self.handshake.is_joined() {
            self.refuse(self.why_not_joined());
            return;
        }
        self.middle = waits.then_some(middle);
        self.replay(shared, out, released);
    }

    /// Why nothing opens: what a search says is more than that a side has no whole record.
    fn why_not_joined(&self) -> Reason {
        let ends = self.sides.iter().filter_map(|side| side.end).map(|(why, _)| why);
        ends.max_by_key(|why| !matches!(why, Reason::NotTls | Reason::Tail(_))).unwrap_or(Reason::NotTls)
    }

    fn go_on(&mut self, index: usize, settled: Option<Settled>, begun: Option<Arrival>) {
        let ends = match settled {
            None => return,
            Some(Settled::Ends(why)) => Some(why),
            Some(Settled::Skipped(skipped)) => {
                self.sides[index].skipped = skipped;
                None
            }
            Some(Settled::Opens(found, skipped)) => {
                self.sides[index].skipped = skipped;
                self.handshake.go_on(index, *found).err()
            }
        };
        if let (Some(why), Some(begun)) = (ends, begun) {
            self.sides[index].end.get_or_insert((why, begun));
        }
    }

    /// Cuts what waited into records, in the order of arrivals.
    fn replay(&mut self, shared: &mut Shared, out: &mut dyn Emit, released: Released) {
        for (index, place, arrival) in released.segments {
            if self.refused.is_none() && self.sides[index].end.is_none() {
                self.cut(shared, out, index, &released.bytes[index][place], arrival);
            }
        }
    }
}
