//! The streams of a connection that is met in its middle (RFC 9113, 5.1): those that were open, and those that open.
//!
//! A stream that is met without an opening was open, unless a lower one opens later: then it was not opened yet.

use std::collections::hash_map::{Entry, HashMap};

use cutter::{Nanos, Numbers};

use crate::windows::BoundedWindow;

/// So many streams may have been open. No peer allows as many.
pub const MOST_OPEN: usize = 1 << 14;
/// The places of so many streams are known without a search.
const MOST_RECENT: usize = 1 << 10;

/// No stream has this number.
const NONE: (u32, u32) = (u32::MAX, 0);

/// What is known of a stream, by the flow that sends.
#[derive(Clone, Debug)]
pub struct Stream {
    pub windows: [BoundedWindow; 2],
    was_open: bool,
    /// Which flows ended it.
    ended: [bool; 2],
}

/// The streams that one side opens, in rising order.
#[derive(Clone, Copy, Debug, Default)]
struct Opened {
    first: Option<u32>,
    last: u32,
}

#[derive(Clone, Debug)]
pub struct Streams {
    /// Since when each flow may have waited.
    beginnings: [Nanos; 2],
    /// Where each stands.
    places: HashMap<u32, u32, Numbers>,
    known: Vec<Stream>,
    free: Vec<u32>,
    /// Streams that were asked for, and their places, by the low bits of their numbers: frames of few streams follow
    /// each other. So many stand here as a power of 2 says, twice as many as there are streams, up to a bound.
    recent: Vec<(u32, u32)>,
    /// The highest that was open, by parity.
    highest: [u32; 2],
    /// By parity: even ones are promised.
    opened: [Opened; 2],
    open: usize,
    has_too_many: bool,
}

impl Streams {
    pub fn new(beginning: Nanos) -> Streams {
        Streams {
            beginnings: [beginning; 2],
            places: HashMap::default(),
            known: Vec::new(),
            free: Vec::new(),
            recent: vec![NONE],
            highest: [0; 2],
            opened: Default::default(),
            open: 0,
            has_too_many: false,
        }
    }

    /// A flow was busy with a frame until this time.
    pub fn begins(&mut self, flow: usize, time: Nanos) {
        self.beginnings[flow] = time;
    }

    /// Whether more were open than is followed.
    pub fn has_too_many(&self) -> bool {
        self.has_too_many
    }

    /// The lowest that opened since the beginning, of those that clients open.
    pub fn first_opened(&self) -> Option<u32> {
        self.opened[1].first
    }

    /// The streams that were open, in rising order.
    pub fn open(&self) -> impl Iterator<Item = (u32, &Stream)> {
        let known = self.places.iter().map(|(id, place)| (*id, &self.known[*place as usize]));
        let mut open: Vec<_> = known.filter(|(_, stream)| stream.was_open).collect();
        open.sort_unstable_by_key(|(id, _)| *id);
        open.into_iter()
    }

    /// Whether HEADERS of the client, or a promise, may open a stream: it is above all that opened or were open.
    pub fn may_open(&self, id: u32) -> bool {
        let parity = (id % 2) as usize;
        match self.opened[parity].first {
            Some(_) => id > self.opened[parity].last,
            None => id > self.highest[parity],
        }
    }

    pub fn is_known(&self, id: u32) -> bool {
        self.places.contains_key(&id)
    }

    /// A stream opens, by a request or by a promise; those above it that were taken to be open were not opened yet.
    pub fn begin(&mut self, id: u32, windows: [BoundedWindow; 2]) {
        let opened = &mut self.opened[(id % 2) as usize];
        if id > opened.last {
            opened.last = id;
            if opened.first.is_none() {
                opened.first = Some(id);
                self.forget_above(id);
            }
        }
        self.insert(id, Stream { windows, was_open: false, ended: [false; 2] });
    }

    fn insert(&mut self, id: u32, stream: Stream) -> u32 {
        let place = match self.places.entry(id) {
            Entry::Occupied(place) => *place.get(),
            Entry::Vacant(none) => *none.insert(self.free.pop().unwrap_or(self.known.len() as u32)),
        };
        match self.known.get_mut(place as usize) {
            Some(known) => *known = stream,
            None => self.known.push(stream),
        }
        if self.places.len() > self.recent.len() / 2 && self.recent.len() < MOST_RECENT {
            self.recent = vec![NONE; self.recent.len() * 2];
        }
        *self.recent_of(id) = (id, place);
        place
    }

    #[inline]
    fn recent_of(&mut self, id: u32) -> &mut (u32, u32) {
        let mask = self.recent.len().wrapping_sub(1);
        &mut self.recent[(id / 2) as usize & mask]
    }

    /// A stream is over. Its place is free, and its evidence that of others, or void.
    fn remove(&mut self, id: u32) {
        if let Some(place) = self.places.remove(&id) {
            self.open -= usize::from(self.known[place as usize].was_open);
            self.free.push(place);
            *self.recent_of(id) = NONE;
        }
    }

    #[inline]
    fn place_of(&mut self, id: u32) -> Option<u32> {
        match *self.recent_of(id) {
            (recent, place) if recent == id => Some(place),
            _ => self.search(id),
        }
    }

    /// A stream that was asked for before.
    #[inline(always)]
    pub fn recent(&mut self, id: u32) -> Option<&mut Stream> {
        match *self.recent_of(id) {
            (recent, place) if recent == id => self.known.get_mut(place as usize),
            _ => None,
        }
    }

    #[inline(never)]
    fn search(&mut self, id: u32) -> Option<u32> {
        let place = *self.places.get(&id)?;
        *self.recent_of(id) = (id, place);
        Some(place)
    }

    fn forget_above(&mut self, id: u32) {
        let mut above = Vec::new();
        above.extend(self.places.keys().copied().filter(|other| *other >= id && other % 2 == id % 2));
        above.into_iter().for_each(|other| self.remove(other));
    }

    /// The stream of a frame: one that opened, or that was open; none where it is over, or was never opened.
    #[inline]
    pub fn get(&mut self, id: u32) -> Option<&mut Stream> {
        if id == 0 {
            return None;
        }
        let place = match self.place_of(id) {
            Some(place) => place,
            None => self.was_open(id)?,
        };
        self.known.get_mut(place as usize)
    }

    /// Notes a stream that was open.
    #[inline(never)]
    fn was_open(&mut self, id: u32) -> Option<u32> {
        let opened = &self.opened[(id % 2) as usize];
        if opened.first.map_or(false, |first| id >= first) {
            return None;
        }
        if self.open == MOST_OPEN {
            self.has_too_many = true;
            return None;
        }
        self.open += 1;
        self.highest[(id % 2) as usize] = self.highest[(id % 2) as usize].max(id);
        let windows = self.beginnings.map(BoundedWindow::open_since);
        Some(self.insert(id, Stream { windows, was_open: true, ended: [false; 2] }))
    }

    /// A flow ends a stream; both do with RST_STREAM.
    pub fn end(&mut self, id: u32, flows: &[usize]) {
        let stream = match self.place_of(id) {
            Some(place) => &mut self.known[place as usize],
            None => return,
        };
        for flow in flows {
            stream.windows[*flow].end();
            stream.ended[*flow] = true;
        }
        if stream.ended == [true; 2] && !stream.was_open {
            self.remove(id);
        }
    }
}

#[cfg(test)]
mod tests {
    use super::*;

    fn windows() -> [BoundedWindow; 2] {
        [BoundedWindow::opened(true), BoundedWindow::opened(true)]
    }

    fn open_ones(streams: &Streams) -> Vec<u32> {
        streams.open().map(|(id, _)| id).collect()
    }

    #[test]
    fn what_is_met_was_open() {
        let mut streams = Streams::new(0);
        assert!(streams.get(0).is_none());
        for id in [5, 9, 2] {
            assert!(streams.get(id).is_some());
        }
        assert!(streams.may_open(11) && !streams.may_open(9) && !streams.may_open(7) && streams.may_open(4));
        streams.begin(11, windows());
        assert_eq!((open_ones(&streams), streams.first_opened()), (vec![2, 5, 9], Some(11)));
        assert!(streams.get(13).is_none(), "not opened");
        assert!(streams.get(7).is_some(), "below the first that opened");
        streams.end(11, &[0, 1]);
        assert!(streams.get(11).is_none() && !streams.is_known(11), "over");
        assert!(!streams.may_open(11) && streams.may_open(13));
    }

    /// A stream above one that opens later was not opened (RFC 9113, 5.1.1).
    #[test]
    fn what_opens_later_was_not_open() {
        let mut streams = Streams::new(0);
        assert!([3, 20, 21].iter().all(|id| streams.get(*id).is_some()));
        streams.begin(9, windows());
        assert_eq!(open_ones(&streams), [3, 20]);
        streams.begin(13, windows());
        assert!(streams.get(21).is_none());
    }

    #[test]
    fn so_many_are_followed() {
        let mut streams = Streams::new(0);
        assert!((0..MOST_OPEN as u32).all(|at| streams.get(2 * at + 1).is_some()));
        assert!(!streams.has_too_many());
        streams.get(2);
        assert!(streams.has_too_many());
    }

    #[test]
    fn an_open_stream_that_ends_is_kept() {
        let mut streams = Streams::new(0);
        streams.get(3);
        streams.end(3, &[0]);
        streams.end(3, &[1]);
        assert_eq!(open_ones(&streams), [3]);
    }
}
