//! Which connection a segment belongs to: the last opening of its pair at or before it (docs/AUDIT_RULES.md, 3).
//!
//! A connection is kept until its outcome is known. After that its pair has the sequence number of its opening, by
//! which a repeated SYN is told from a new one, and whether segments still pass.

use std::collections::{HashMap, VecDeque};

use captures::{flags, swapped, Arrival, Ends, Segment, END_OF_OFFSETS};
use tls::{Random, Shared, CLIENT, SERVER};

use crate::common::{Came, Common};
use crate::connections::FollowedConnection;
use crate::ends_hashing::EndsHashing;
use crate::listener::{Sender, Written, HEADERS};
use crate::outcomes::{Became, Fate, Outcome, Unopened};
use crate::plaintext::Later;
use crate::sink::Sink;

/// Twice the life of a segment (RFC 9293, 3.4.2), in nanoseconds.
const LONGEST_WAY: i64 = 240_000_000_000;

/// What is known of a pair of endpoints.
#[derive(Clone, Copy)]
struct Place {
    /// Its last opening.
    connection: usize,
    /// Whether the client of its last opening is the lesser of the two.
    client_is_less: bool,
    state: State,
}

#[derive(Clone, Copy)]
enum State {
    /// Its connection has this slot.
    Open(usize),
    /// Its connection is over: whether segments still pass, and the sequence number of its opening.
    Over { passes: bool, sequence: Option<u32> },
    /// It opened none so far, and is the pair of this number among these.
    Unopened(usize),
}

/// What a connection's bytes are, behind a gap.
pub enum Bytes {
    Clear,
    Tls(Box<tls::TlsConnection>),
}

struct Pair {
    first: Arrival,
    ends: Ends,
    segments: u64,
    /// Whether the other one of both sent some of them.
    has_both: bool,
    has_answer: bool,
    /// What the first acknowledged, and whether a later one acknowledged more.
    acknowledged: Option<u32>,
    acknowledges_more: bool,
}

impl Pair {
    fn new(first: Arrival, ends: Ends) -> Pair {
        let (has_both, has_answer, acknowledges_more) = (false, false, false);
        Pair { first, ends, segments: 0, has_both, has_answer, acknowledged: None, acknowledges_more }
    }

    /// Takes a segment, and answers whether its first sender sends (0) or the other one.
    #[inline]
    fn take(&mut self, segment: &Segment<'_>) -> usize {
        let both = flags::SYN | flags::ACK;
        let is_other = segment.ends != self.ends;
        self.segments += 1;
        self.has_both |= is_other;
        self.has_answer |= segment.flags & both == both;
        if segment.flags & flags::ACK != 0 {
            let more = segment.acknowledgement.wrapping_sub(*self.acknowledged.get_or_insert(segment.acknowledgement));
            self.acknowledges_more |= more > 0 && more < END_OF_OFFSETS;
        }
        usize::from(is_other)
    }

    fn unopened(self) -> Unopened {
        let Pair { first, ends, segments, .. } = self;
        let is_one_way = !self.has_both && (self.has_answer || self.acknowledges_more);
        Unopened { first, ends, segments, is_one_way, fate: Fate::NotAsked }
    }
}

/// Where a segment belongs, and whether it opens the connection.
pub struct Taken {
    pub sender: Sender,
    pub opens: bool,
}

/// A segment of a pair without an opening so far: which one of these, and whether its first sender sends (0) or not.
#[derive(Clone, Copy)]
pub struct Stray {
    pub pair: usize,
    pub flow: usize,
}

type Places = HashMap<Ends, Place, EndsHashing>;

/// The connections of a capture, and the pairs of endpoints that were not seen to open one.
#[derive(Default)]
pub struct Table {
    places: Places,
    /// The last segment's pair and its place, until places change.
    latest: Option<(Ends, Place)>,
    /// In the order of their first segments.
    unopened: Vec<Pair>,
    slots: Vec<Option<Box<FollowedConnection>>>,
    free: Vec<usize>,
    /// By the numbers of connections.
    outcomes: Vec<(usize, Outcome)>,
    /// How many connections opened.
    count: usize,
    /// The last packet of each of them.
    last: Vec<Arrival>,
    /// Connections that were reset, each with the time of its RST, until that is long ago.
    reset: VecDeque<(i64, usize, usize)>,
    /// Which connections wait for the keys of a client random.
    waiting: HashMap<Random, Vec<(usize, usize)>>,
    /// How many fragments belong to connections, by their numbers.
    fragments: HashMap<usize, u64>,
    /// Whether connections are joined; and of those of TLS with gaps, what their records go on with.
    pub is_joining: bool,
    behind: HashMap<usize, Box<tls::TlsConnection>>,
}

/// A pair's name, whoever sends, and whether the sender is the lesser of the two.
fn pair_of(ends: &Ends) -> (Ends, bool) {
    let other = swapped(ends);
    if *ends <= other {
        (*ends, true)
    } else {
        (other, false)
    }
}

/// The last connection of a connection's pair, where it is another one.
fn later_than(connection: &FollowedConnection, places: &Places) -> Option<Later> {
    let (pair, is_less) = pair_of(connection.ends());
    let place = places.get(&pair).filter(|place| place.connection != connection.number())?;
    let sides = if place.client_is_less == is_less { [CLIENT, SERVER] } else { [SERVER, CLIENT] };
    Some(Later { connection: place.connection, sides })
}

impl Table {
    /// Takes a segment to its connection, and answers which one that is, or that there is none.
    pub fn take(
        &mut self,
        common: &mut Common<'_, '_>,
        arrival: Arrival,
        segment: &Segment<'_>,
    ) -> Result<Taken, Stray> {
        let (pair, is_less) = pair_of(&segment.ends);
        let place = self.place_of(&pair);
        let side = place.map(|place| if place.client_is_less == is_less { CLIENT } else { SERVER });
        if segment.flags & (flags::SYN | flags::ACK) == flags::SYN && !self.repeats(side, place, segment.sequence) {
            let slot = self.open(common, arrival, segment, place.map(|place| place.state));
            let connection = self.count - 1;
            self.last.push(arrival);
            self.latest = None;
            self.places.insert(pair, Place { connection, client_is_less: is_less, state: State::Open(slot) });
            self.take_open(common, slot, &Came { arrival, side: CLIENT, segment });
            return Ok(Taken { sender: Sender { connection, side: CLIENT }, opens: true });
        }
        let (place, side) = match (place, side) {
            (Some(Place { state: State::Unopened(number), .. }), _) => {
                return Err(self.stray(common.sink, arrival, segment, number));
            }
            (Some(place), Some(side)) => (place, side),
            _ => {
                let number = self.unopened.len();
                let state = State::Unopened(number);
                self.latest = None;
                self.places.insert(pair, Place { connection: usize::MAX, client_is_less: is_less, state });
                self.unopened.push(Pair::new(arrival, segment.ends));
                return Err(self.stray(common.sink, arrival, segment, number));
            }
        };
        let sender = Sender { connection: place.connection, side };
        self.last[place.connection] = arrival;
        match place.state {
            State::Open(slot) => self.take_open(common, slot, &Came { arrival, side, segment }),
            State::Over { passes: true, .. } => common.sink.emit(arrival, Some(sender), Written::whole(segment)),
            State::Over { passes: false, .. } | State::Unopened(_) => {}
        }
        Ok(Taken { sender, opens: false })
    }

    /// Whether the segments of a pair go through as they stand.
    pub fn passes(&self, ends: &Ends) -> bool {
        let place = self.places.get(&pair_of(ends).0);
        matches!(place, Some(Place { state: State::Over { passes: true, .. }, .. }))
    }

    /// Writes a segment that waited, of a connection that goes through as it stands.
    #[inline]
    pub fn pass(&mut self, sink: &mut Sink<'_>, sender: Sender, arrival: Arrival, segment: Written<'_>) {
        self.last[sender.connection] = arrival;
        sink.emit(arrival, Some(sender), segment);
    }

    /// What the bytes are of a connection with a gap, where they could be read. All connections have ended.
    pub fn take_bytes(&mut self, connection: usize) -> Option<Bytes> {
        let at = self.outcomes.binary_search_by_key(&connection, |one| one.0).ok()?;
        match self.outcomes[at].1.became {
            Became::Clear => Some(Bytes::Clear),
            Became::Read(_) => self.behind.remove(&connection).map(Bytes::Tls),
            Became::Refused(_) => None,
        }
    }

    fn place_of(&mut self, pair: &Ends) -> Option<Place> {
        match self.latest {
            Some((latest, place)) if latest == *pair => Some(place),
            _ => {
                let place = self.places.get(pair).copied();
                self.latest = place.map(|place| (*pair, place));
                place
            }
        }
    }

    fn take_open(&mut self, common: &mut Common<'_, '_>, slot: usize, came: &Came<'_, '_>) {
        let connection = match &mut self.slots[slot] {
            Some(connection) => connection,
            None => return,
        };
        connection.take(common, came);
        if connection.is_clear() || connection.is_over() {
            self.finish(common, slot);
            return;
        }
        if came.segment.flags & flags::RST != 0 && connection.is_tls() {
            self.reset.push_back((came.arrival.nanos, connection.number(), slot));
        }
        self.list(slot);
    }

    /// Notes which connection waits for which keys.
    fn list(&mut self, slot: usize) {
        if let Some(connection) = self.slots[slot].as_mut().filter(|one| !one.is_listed && one.waits_for_key()) {
            if let Some(random) = connection.random() {
                connection.is_listed = true;
                self.waiting.entry(random).or_default().push((connection.number(), slot));
            }
        }
    }

    /// Whether a SYN of this client with this number would be the one that opened its last connection once more.
    pub fn has_opened(&self, ends: &Ends, sequence: u32) -> bool {
        let (pair, is_less) = pair_of(ends);
        let place = self.places.get(&pair).copied();
        let side = place.map(|place| if place.client_is_less == is_less { CLIENT } else { SERVER });
        self.repeats(side, place, sequence)
    }

    /// Whether a SYN with this number is the one that opened the sender's last connection once more.
    fn repeats(&self, side: Option<usize>, place: Option<Place>, sequence: u32) -> bool {
        let opened = match place.filter(|_| side == Some(CLIENT)).map(|place| place.state) {
            Some(State::Open(slot)) => self.slots[slot].as_ref().and_then(|connection| connection.initial()),
            Some(State::Over { sequence, .. }) => sequence,
            Some(State::Unopened(_)) | None => None,
        };
        opened == Some(sequence)
    }

    /// A new connection, and its slot. One that its pair had before has all its segments now.
    fn open(
        &mut self,
        common: &mut Common<'_, '_>,
        arrival: Arrival,
        segment: &Segment<'_>,
        before: Option<State>,
    ) -> usize {
        if let Some(State::Open(slot)) = before {
            if self.slots[slot].as_ref().map_or(false, |connection| !connection.waits_for_key()) {
                self.finish(common, slot);
            }
        }
        self.end_reset(common, arrival.nanos);
        let connection = Some(Box::new(FollowedConnection::new(self.count, arrival, segment)));
        self.count += 1;
        match self.free.pop() {
            Some(slot) => {
                self.slots[slot] = connection;
                slot
            }
            None => {
                self.slots.push(connection);
                self.slots.len() - 1
            }
        }
    }

    /// Ends connections whose RST was so long ago that no segment sent before it is still on its way. Where there is a
    /// hole, or something waits, that is left to the end, so that what is written keeps its order.
    fn end_reset(&mut self, common: &mut Common<'_, '_>, now: i64) {
        while let Some(&(then, number, slot)) = self.reset.front() {
            if now.saturating_sub(then) <= LONGEST_WAY {
                break;
            }
            self.reset.pop_front();
            let connection = self.slots[slot].as_ref();
            if connection.map_or(false, |connection| connection.number() == number && connection.is_quiet()) {
                self.finish(common, slot);
            }
        }
    }

    /// Counts a segment of no connection, and writes its headers, for h2audit to name it: where connections are joined,
    /// those of its pair's first one alone.
    fn stray(&mut self, sink: &mut Sink<'_>, arrival: Arrival, segment: &Segment<'_>, number: usize) -> Stray {
        let pair = &mut self.unopened[number];
        let flow = pair.take(segment);
        match self.is_joining && pair.segments > 1 {
            false => sink.emit(arrival, None, Written::headers(segment, &mut [0; HEADERS])),
            true => sink.leave_out(arrival),
        }
        Stray { pair: number, flow }
    }

    /// Goes on with what waited for keys of these connections, in the order of openings.
    pub fn keys_came(&mut self, common: &mut Common<'_, '_>, randoms: &[Random]) {
        let mut slots: Vec<_> = randoms.iter().filter_map(|random| self.waiting.remove(random)).flatten().collect();
        slots.sort_unstable();
        for (number, slot) in slots {
            if let Some(connection) = self.slots[slot].as_mut().filter(|one| one.number() == number) {
                connection.is_listed = false;
                if connection.waits_for_key() {
                    connection.note_later(later_than(connection, &self.places));
                    connection.advance(common);
                }
                self.list(slot);
            }
        }
    }

    /// Counts a fragment at the connection that its pair has now.
    pub fn fragment(&mut self, ends: &Ends) {
        let place = self.places.get(&pair_of(ends).0).filter(|place| !matches!(place.state, State::Unopened(_)));
        if let Some(place) = place {
            *self.fragments.entry(place.connection).or_insert(0) += 1;
        }
    }

    /// Asks for the secrets of the sessions that waiting connections go on with.
    pub fn ask_for_sessions(&self, shared: &mut Shared) {
        for slot in self.open_slots() {
            if let Some(connection) = self.slots[slot].as_ref().filter(|connection| connection.waits_for_key()) {
                connection.resume(shared);
            }
        }
    }

    /// The slots of open connections, in the order of openings.
    fn open_slots(&self) -> Vec<usize> {
        let mut open: Vec<_> = (0..self.slots.len()).filter(|slot| self.slots[*slot].is_some()).collect();
        open.sort_by_key(|slot| self.slots[*slot].as_ref().map(|connection| connection.number()));
        open
    }

    fn finish(&mut self, common: &mut Common<'_, '_>, slot: usize) {
        let mut connection = match self.slots[slot].take() {
            Some(connection) => connection,
            None => return,
        };
        self.free.push(slot);
        self.latest = None;
        connection.note_later(later_than(&connection, &self.places));
        self.outcomes.push((connection.number(), connection.finish(common)));
        if let Some(tls) = connection.take_tls_with_gap(self.is_joining) {
            self.behind.insert(connection.number(), tls);
        }
        if let Some(place) = self.places.get_mut(&pair_of(connection.ends()).0) {
            if matches!(place.state, State::Open(open) if open == slot) {
                place.state = State::Over { passes: connection.is_clear(), sequence: connection.initial() };
            }
        }
    }

    /// Ends all connections.
    pub fn finish_open(&mut self, common: &mut Common<'_, '_>) {
        common.shared.keys.waits_for_sessions = false;
        for slot in self.open_slots() {
            self.finish(common, slot);
        }
        self.outcomes.sort_by_key(|(number, _)| *number);
    }

    /// Ends all connections, and answers what became of each, and which pairs opened none.
    pub fn finish_all(mut self, common: &mut Common<'_, '_>) -> (Vec<Outcome>, Vec<Unopened>) {
        self.finish_open(common);
        for ((number, outcome), last) in self.outcomes.iter_mut().zip(self.last) {
            outcome.fragments = self.fragments.get(number).copied().unwrap_or(0);
            outcome.last = last;
        }
        let unopened = self.unopened.into_iter().map(Pair::unopened).collect();
        (self.outcomes.into_iter().map(|(_, outcome)| outcome).collect(), unopened)
    }
}
