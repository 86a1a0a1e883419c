//! The streams of a connection: those that go on, and those that are over, which are packed. Where very many go on,
//! those of which nothing came for long are packed too.

use std::cell::Cell;
use std::cmp::Reverse;
use std::collections::{HashMap, HashSet};
use std::rc::Rc;

use cutter::Numbers;

use crate::answer::Nanos;
use crate::requests::Packed;
use crate::stream::Stream;
use crate::windows::Initial;

#[derive(Debug)]
pub struct Table {
    live: Live,
    /// Streams that go on, and are packed; and by sides their highest credits, where these are known.
    parked: HashSet<u32, Numbers>,
    parked_highest: Cell<[Option<Highest>; 2]>,
    /// How many are not packed, of all connections.
    count: Rc<Cell<usize>>,
    packed: Packed,
    orders: Orders,
}

/// Streams that are not packed, in no order. Many frames in a row are of one stream, so the last one that was asked for
/// is found at once. Where many go on, most are found without a hash.
#[derive(Debug)]
struct Live {
    #[allow(clippy::vec_box)] // they would be moved as the list grows
    streams: Vec<Box<Stream>>,
    /// Where each stands.
    places: HashMap<u32, u32, Numbers>,
    latest: Option<(u32, u32)>,
    /// Where one may stand, by the lowest bits of its number; nothing where few go on.
    near: Vec<u32>,
    /// Room for the next one.
    spare: Option<Box<Stream>>,
}

/// So many streams are few.
const FEW: usize = 8;
/// So many places are there for each of many streams, at least.
const NEAR: usize = 2;

impl Live {
    fn new(numbers: Numbers) -> Live {
        let places = HashMap::with_hasher(numbers);
        Live { streams: Vec::new(), places, latest: None, near: Vec::new(), spare: None }
    }

    fn place_of(&self, number: u32) -> Option<u32> {
        self.near_place_of(number).or_else(|| self.places.get(&number).copied())
    }

    /// Where one stands, if that is found without a hash.
    #[inline]
    fn near_place_of(&self, number: u32) -> Option<u32> {
        match self.latest {
            Some((latest, place)) if latest == number => Some(place),
            _ => {
                let place = *self.near.get(self.near_of(number))?;
                self.streams.get(place as usize).filter(|stream| stream.number == number).map(|_| place)
            }
        }
    }

    /// Which of the near places is a stream's; one that is not there, where there are none.
    #[inline]
    fn near_of(&self, number: u32) -> usize {
        (number / 2) as usize & self.near.len().wrapping_sub(1)
    }

    /// Notes where one stands.
    fn note_near(&mut self, number: u32, place: u32) {
        let near = self.near_of(number);
        self.near.get_mut(near).into_iter().for_each(|near| *near = place);
    }

    #[inline(never)]
    fn far_place_of(&mut self, number: u32) -> Option<u32> {
        let place = *self.places.get(&number)?;
        self.note_near(number, place);
        Some(place)
    }

    /// Makes more near places, where they are not enough for so many streams.
    fn grow_near(&mut self) {
        let count = self.streams.len();
        if count > FEW && self.near.len() < NEAR * count {
            self.near = vec![0; (2 * NEAR * count).next_power_of_two()];
            for place in 0..count {
                self.note_near(self.streams[place].number, place as u32);
            }
        }
    }

    #[inline]
    fn get_mut(&mut self, number: u32) -> Option<&mut Stream> {
        let place = match self.near_place_of(number) {
            Some(place) => place,
            None => self.far_place_of(number)?,
        };
        self.latest = Some((number, place));
        self.streams.get_mut(place as usize).map(|stream| &mut **stream)
    }

    fn get(&self, number: u32) -> Option<&Stream> {
        self.streams.get(self.place_of(number)? as usize).map(|stream| &**stream)
    }

    /// Opens a new one.
    fn open(&mut self, stream: Stream) {
        let stream = match self.spare.take() {
            Some(mut room) => {
                *room = stream;
                room
            }
            None => Box::new(stream),
        };
        self.insert(stream);
    }

    fn insert(&mut self, stream: Box<Stream>) {
        let place = self.streams.len() as u32;
        self.latest = Some((stream.number, place));
        self.places.insert(stream.number, place);
        self.note_near(stream.number, place);
        self.streams.push(stream);
        self.grow_near();
    }

    /// Takes one out. The last one takes its place.
    fn remove(&mut self, number: u32) -> Option<Box<Stream>> {
        let place = self.places.remove(&number)?;
        let stream = self.streams.swap_remove(place as usize);
        if let Some(moved) = self.streams.get(place as usize).map(|stream| stream.number) {
            self.places.insert(moved, place);
            self.note_near(moved, place);
        }
        self.latest = None;
        Some(stream)
    }

    /// Lets go of all of which this does not hold, and of room that is not needed.
    fn retain(&mut self, holds: impl FnMut(&mut Box<Stream>) -> bool) {
        self.streams.retain_mut(holds);
        self.streams.shrink_to_fit();
        self.places.clear();
        self.places.extend(self.streams.iter().zip(0..).map(|(stream, place)| (stream.number, place)));
        self.places.shrink_to_fit();
        (self.latest, self.spare) = (None, None);
        self.near = Vec::new();
        self.grow_near();
    }
}

/// A credit, how many streams were opened before the one that has it, and that stream: of several the first is the
/// greatest.
type Credit = (i64, Reverse<u32>, u32);

/// The highest credit of windows that have ended; and of others, beside the initial window in force.
type Highest = [Option<Credit>; 2];

/// How many streams were opened before each: by odd and even numbers, which nearly always grow.
#[derive(Debug, Default)]
struct Orders {
    growing: [Vec<(u32, u32)>; 2],
    others: HashMap<u32, u32>,
    count: u32,
}

impl Orders {
    /// Mostly it is asked for one that is higher than all before.
    #[inline(never)]
    fn of(&self, number: u32) -> Option<u32> {
        let growing = &self.growing[(number & 1) as usize];
        if growing.last().map_or(true, |last| last.0 < number) {
            return None;
        }
        match growing.binary_search_by_key(&number, |one| one.0) {
            Ok(at) => growing.get(at).map(|one| one.1),
            Err(_) => self.others.get(&number).copied(),
        }
    }

    fn add(&mut self, number: u32) -> u32 {
        let order = self.count;
        let growing = &mut self.growing[(number & 1) as usize];
        match growing.last() {
            Some(last) if last.0 >= number => {
                self.others.insert(number, order);
            }
            _ => growing.push((number, order)),
        }
        self.count += 1;
        order
    }
}

impl Table {
    pub fn new(round_trip: Nanos, numbers: Numbers, count: Rc<Cell<usize>>) -> Table {
        Table {
            live: Live::new(numbers),
            parked: HashSet::with_hasher(numbers),
            parked_highest: Cell::default(),
            count,
            packed: Packed::new(round_trip),
            orders: Orders::default(),
        }
    }

    /// What hops of a proxy are sought by is kept of all streams, if it is wanted.
    pub fn with_briefs(mut self, are_wanted: bool) -> Table {
        if are_wanted {
            self.packed.keep_briefs();
        }
        self
    }

    /// Whether a stream of this number was opened.
    pub fn has(&self, number: u32) -> bool {
        self.live.place_of(number).is_some() || self.orders.of(number).is_some()
    }

    /// Opens a stream, by how many were opened before.
    pub fn open(&mut self, number: u32, make: impl FnOnce(u32) -> Stream) {
        let order = self.orders.add(number);
        self.count.set(self.count.get() + 1);
        self.live.open(make(order));
    }

    /// Does something to a stream that was opened; also to one that is over.
    #[inline]
    pub fn touch<T>(&mut self, number: u32, change: impl FnOnce(&mut Stream) -> T) -> Option<T> {
        let Table { live, packed, orders, .. } = self;
        let mut unpacked = None;
        let stream = match live.get_mut(number) {
            Some(stream) => stream,
            None => unpacked.insert(unpacked_of(packed, orders.of(number)?)?),
        };
        let changed = change(stream);
        if let Some(stream) = unpacked {
            self.put_back(number, stream);
        }
        Some(changed)
    }

    /// One that goes on stays unpacked.
    #[inline(never)]
    fn put_back(&mut self, number: u32, stream: Box<Stream>) {
        if self.parked.remove(&number) {
            self.parked_highest.set(Default::default());
            self.count.set(self.count.get() + 1);
            self.live.insert(stream);
        } else {
            self.packed.put(&stream);
        }
    }

    /// Packs all that can go on from what is packed.
    pub fn park(&mut self) {
        let Table { live, parked, parked_highest, count, packed, .. } = self;
        parked_highest.set(Default::default());
        live.retain(|stream| {
            let can_be = stream.sides.iter().all(|side| side.unshown.is_none() && side.kept.is_none());
            if can_be {
                packed.put(stream);
                parked.insert(stream.number);
                count.set(count.get() - 1);
            }
            !can_be
        });
    }

    /// Looks at a stream.
    pub fn look<T>(&self, number: u32, at: impl FnOnce(&Stream) -> T) -> Option<T> {
        match self.live.get(number) {
            Some(stream) => Some(at(stream)),
            None => self.packed.get(self.orders.of(number)? as usize).map(|stream| at(&stream)),
        }
    }

    /// Finishes a stream that is over, and packs it.
    pub fn settle(&mut self, number: u32, finish: impl FnOnce(&mut Stream)) {
        if self.live.get(number).map_or(false, Stream::is_over) {
            if let Some(mut stream) = self.live.remove(number) {
                self.count.set(self.count.get() - 1);
                finish(&mut stream);
                self.packed.put(&stream);
                stream.let_go();
                self.live.spare = Some(stream);
            }
        }
    }

    /// Gives each stream that goes on, in no order.
    pub fn each_going_on(&self, mut take: impl FnMut(&Stream)) {
        self.live.streams.iter().for_each(|stream| take(stream));
        let parked = self.parked.iter().filter_map(|number| self.orders.of(*number));
        parked.filter_map(|order| self.packed.get(order as usize)).for_each(|stream| take(&stream));
    }

    /// The highest credit of those that go on, for what a side sends, and the stream that has it.
    pub fn highest_credit(&self, side: usize, initial: &Initial) -> Option<(i64, u32)> {
        let mut all = self.parked_highest(side);
        self.live.streams.iter().for_each(|stream| note_credit(&mut all, side, stream));
        let [ended, live] = all;
        let live = live.map(|(credit, order, number)| (credit + initial.value, order, number));
        ended.max(live).map(|(credit, _, number)| (credit, number))
    }

    /// What is parked does not change.
    fn parked_highest(&self, side: usize) -> Highest {
        let mut known = self.parked_highest.get();
        let found = *known[side].get_or_insert_with(|| {
            let mut found = Highest::default();
            let orders = self.parked.iter().filter_map(|number| self.orders.of(*number));
            let streams = orders.filter_map(|order| self.packed.get(order as usize));
            streams.for_each(|stream| note_credit(&mut found, side, &stream));
            found
        });
        self.parked_highest.set(known);
        found
    }

    /// Ends each stream that goes on, and packs it.
    pub fn end(mut self, mut finish: impl FnMut(&mut Stream)) -> Packed {
        let live = &self.live.streams;
        self.count.set(self.count.get() - live.len());
        let mut going_on: Vec<(u32, u32)> = live.iter().map(|stream| (stream.order, stream.number)).collect();
        going_on.extend(self.parked.iter().filter_map(|number| Some((self.orders.of(*number)?, *number))));
        going_on.sort_unstable();
        for (order, number) in going_on {
            let packed = &self.packed;
            let live = self.live.remove(number);
            if let Some(mut stream) = live.or_else(|| unpacked_of(packed, order)) {
                finish(&mut stream);
                self.packed.put(&stream);
            }
        }
        self.packed.end();
        self.packed
    }
}

#[inline(never)]
fn unpacked_of(packed: &Packed, order: u32) -> Option<Box<Stream>> {
    packed.get(order as usize).map(Box::new)
}

fn note_credit(found: &mut Highest, side: usize, stream: &Stream) {
    let one = &stream.sides[side];
    if one.window.was_live && one.end.is_none() {
        let highest = &mut found[usize::from(one.window.is_live)];
        *highest = (*highest).max(Some((one.window.credit, Reverse(stream.order), stream.number)));
    }
}

#[cfg(test)]
mod tests;
