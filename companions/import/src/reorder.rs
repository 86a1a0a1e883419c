//! Puts packets in order of time, as far as a bound allows (docs/MAP.md, 3).
//!
//! A packet is late if one before it is newer. It goes before all newer ones if it is at most a second late, and no
//! more than so many packets and bytes of newer ones came before it. Else it is left where it is, as if it had the time
//! of the newest packet before it. Equal times keep their order.
//!
//! Where a second of nothing but too late packets comes, a clock was set back: times count anew from there.

use std::cmp::{Ordering, Reverse};
use std::collections::{BinaryHeap, VecDeque};

use captures::Packet;

use crate::outcomes::Reordered;

/// How late a packet may be that is put in order, in nanoseconds.
pub const MOST_LATE: i64 = 1_000_000_000;

/// What is held until nothing can come before it.
#[derive(Clone, Copy)]
struct Bounds {
    nanos: i64,
    packets: usize,
    bytes: usize,
}

const BOUNDS: Bounds = Bounds { nanos: MOST_LATE, packets: 1 << 16, bytes: 64 << 20 };

/// Where a packet goes.
#[derive(Clone, Copy, PartialEq, Eq, PartialOrd, Ord)]
struct Place {
    /// How often times began anew before it.
    clock: u32,
    nanos: i64,
    number: u64,
}

/// A packet that is held.
pub struct Held {
    place: Place,
    nanos: i64,
    link: Option<u16>,
    original: u32,
    data: Box<[u8]>,
}

impl Held {
    /// Its number in the capture.
    pub fn number(&self) -> u64 {
        self.place.number
    }

    pub fn packet(&self) -> Packet<'_> {
        Packet { nanos: self.nanos, link: self.link, data: &self.data, original: self.original }
    }
}

impl Ord for Held {
    fn cmp(&self, other: &Held) -> Ordering {
        self.place.cmp(&other.place)
    }
}

impl PartialOrd for Held {
    fn partial_cmp(&self, other: &Held) -> Option<Ordering> {
        Some(self.cmp(other))
    }
}

impl PartialEq for Held {
    fn eq(&self, other: &Held) -> bool {
        self.place == other.place
    }
}

impl Eq for Held {}

/// Takes packets as the capture has them, and gives them in their new order.
pub struct Reorder {
    bounds: Bounds,
    /// What came in order, and what goes before some of it.
    in_order: VecDeque<Held>,
    late: BinaryHeap<Reverse<Held>>,
    bytes: usize,
    clock: u32,
    /// The newest time that this clock has told.
    newest: Option<i64>,
    /// The time of the first of the packets that came last and were all too late.
    too_late_from: Option<i64>,
    /// Where the last packet went that was given.
    given: Option<(u32, i64)>,
    done: Reordered,
}

impl Default for Reorder {
    fn default() -> Reorder {
        Reorder::within(BOUNDS)
    }
}

impl Reorder {
    fn within(bounds: Bounds) -> Reorder {
        Reorder {
            bounds,
            in_order: VecDeque::new(),
            late: BinaryHeap::new(),
            bytes: 0,
            clock: 0,
            newest: None,
            too_late_from: None,
            given: None,
            done: Reordered::default(),
        }
    }

    /// What was put in order, and what was not.
    pub fn done(&self) -> Reordered {
        self.done
    }

    /// Takes the next packet of the capture. What stands for a block without a packet has no time, and is not moved.
    pub fn add(&mut self, number: u64, packet: &Packet<'_>) {
        let nanos = match packet.link {
            Some(_) => self.time_of(packet.nanos),
            None => self.newest.unwrap_or(i64::MIN),
        };
        let is_late = self.newest.map_or(false, |newest| nanos < newest);
        let Packet { nanos: own, link, data, original } = *packet;
        self.bytes += data.len();
        let place = Place { clock: self.clock, nanos, number };
        let held = Held { place, nanos: own, link, original, data: data.into() };
        match is_late {
            true => self.late.push(Reverse(held)),
            false => self.in_order.push_back(held),
        }
    }

    /// The time by which a packet is put in order.
    fn time_of(&mut self, nanos: i64) -> i64 {
        let newest = match self.newest {
            Some(newest) if nanos < newest => newest,
            _ => {
                self.too_late_from = None;
                self.newest = Some(nanos);
                return nanos;
            }
        };
        let late = newest.saturating_sub(nanos);
        if late > self.bounds.nanos {
            return self.too_late(nanos, newest);
        }
        self.too_late_from = None;
        if self.given.map_or(false, |given| given > (self.clock, nanos)) {
            self.done.left += 1;
            return newest;
        }
        self.done.packets += 1;
        self.done.nanos = self.done.nanos.max(late.unsigned_abs());
        nanos
    }

    /// Leaves a packet where it is. Times may count anew from it.
    fn too_late(&mut self, nanos: i64, newest: i64) -> i64 {
        self.done.left += 1;
        let from = *self.too_late_from.get_or_insert(nanos);
        if nanos.saturating_sub(from) < self.bounds.nanos {
            return newest;
        }
        self.clock += 1;
        self.newest = Some(nanos);
        self.too_late_from = None;
        nanos
    }

    /// The next packet of the new order, if nothing can come before it any more.
    pub fn due(&mut self) -> Option<Held> {
        let Place { clock, nanos, .. } = self.first()?;
        let is_full = self.in_order.len() + self.late.len() > self.bounds.packets || self.bytes > self.bounds.bytes;
        let oldest = self.newest.map_or(i64::MIN, |newest| newest.saturating_sub(self.bounds.nanos));
        match is_full || clock < self.clock || nanos < oldest {
            true => self.take(),
            false => None,
        }
    }

    /// The next packet of the new order, where no more come.
    pub fn take(&mut self) -> Option<Held> {
        let is_late = self.late.peek().map(|held| held.0.place) == self.first();
        let held = if is_late { self.late.pop()?.0 } else { self.in_order.pop_front()? };
        self.bytes -= held.data.len();
        self.given = Some((held.place.clock, held.place.nanos));
        Some(held)
    }

    fn first(&self) -> Option<Place> {
        let (in_order, late) = (self.in_order.front(), self.late.peek());
        in_order.into_iter().chain(late.map(|late| &late.0)).map(|held| held.place).min()
    }
}

#[cfg(test)]
mod tests {
    use super::*;
    use captures::RAW;

    const SECOND: i64 = 1_000_000_000;

    /// The numbers of packets, which count from 1 on, in their new order.
    fn reordered(bounds: Bounds, packets: &[(Option<i64>, usize)]) -> (Vec<u64>, Reordered) {
        let mut reorder = Reorder::within(bounds);
        let mut order = Vec::new();
        for (number, (nanos, length)) in (1..).zip(packets) {
            let data = vec![0; *length];
            let (nanos, link) = (nanos.unwrap_or(0), nanos.map(|_| RAW));
            reorder.add(number, &Packet { nanos, link, data: &data, original: 0 });
            order.extend(std::iter::from_fn(|| reorder.due()).map(|held| held.number()));
            assert!(reorder.in_order.len() + reorder.late.len() <= bounds.packets && reorder.bytes <= bounds.bytes);
        }
        order.extend(std::iter::from_fn(|| reorder.take()).map(|held| held.number()));
        (order, reorder.done())
    }

    fn in_order_of(times: &[i64]) -> (Vec<u64>, Reordered) {
        reordered(BOUNDS, &times.iter().map(|time| (Some(*time), 100)).collect::<Vec<_>>())
    }

    #[test]
    fn late_packets_go_before_newer_ones() {
        let (order, done) = in_order_of(&[10, 30, 20, 30, 20, 40, 29]);
        assert_eq!(order, [1, 3, 5, 7, 2, 4, 6]);
        assert_eq!(done, Reordered { packets: 3, nanos: 11, left: 0 });
    }

    #[test]
    fn a_second_is_the_bound() {
        let (order, done) = in_order_of(&[5 * SECOND, 4 * SECOND, 4 * SECOND - 1, 5 * SECOND + 1, 5 * SECOND - 1]);
        assert_eq!(order, [2, 5, 1, 3, 4]);
        assert_eq!(done, Reordered { packets: 2, nanos: SECOND as u64, left: 1 });
    }

    /// The clock was set back by a minute: from a second behind that on packets are put in order anew.
    #[test]
    fn times_count_anew() {
        let back = 60 * SECOND;
        let times = [
            100,
            80,
            100 + 2 * SECOND,
            90 - back,
            80 - back,
            89 + SECOND - back,
            91 + SECOND - back,
            70 + SECOND - back,
        ];
        let (order, done) = in_order_of(&times);
        assert_eq!(order, [2, 1, 3, 4, 5, 6, 8, 7]);
        assert_eq!(done, Reordered { packets: 2, nanos: 21, left: 4 });
        let (order, done) = in_order_of(&[100, 90 - back, 101, 92 + SECOND - back, 95]);
        assert_eq!((order, done.left), (vec![5, 1, 2, 3, 4], 2), "not where others come between them");
    }

    #[test]
    fn blocks_without_packets_stay() {
        let packets = [(None, 0), (Some(20), 9), (None, 0), (Some(10), 9), (None, 0), (Some(30), 9)];
        assert_eq!(reordered(BOUNDS, &packets).0, [1, 4, 2, 3, 5, 6]);
    }

    /// Beside the definition: for each packet all newer ones before it are counted.
    #[test]
    fn within_all_bounds() {
        mutations::each(3000, |dice| {
            let bounds = Bounds { nanos: 20, packets: 1 + dice.below(12), bytes: 30 + dice.below(60) };
            let reach = 1 + dice.below(60) as i64;
            let mut now = 0;
            let packets: Vec<(Option<i64>, usize)> = (0..dice.below(80))
                .map(|_| {
                    now += dice.below(5) as i64 - if dice.below(40) == 0 { 50 } else { 0 };
                    (Some(now - dice.below(2 * reach as usize) as i64 / 2), 1 + dice.below(9))
                })
                .collect();
            assert_eq!(reordered(bounds, &packets), by_definition(bounds, &packets), "{packets:?}");
        });
    }

    fn by_definition(bounds: Bounds, packets: &[(Option<i64>, usize)]) -> (Vec<u64>, Reordered) {
        let mut done = Reordered::default();
        let mut places: Vec<(Place, usize)> = Vec::new();
        let (mut begin, mut first_of_run) = (0, None);
        for (number, (time, length)) in (1..).zip(packets) {
            let time = time.unwrap();
            let clock = places.last().map_or(0, |last| last.0.clock);
            let newest = places[begin..].iter().map(|(place, _)| place.nanos).max().unwrap_or(time);
            let newer: Vec<usize> = places[begin..].iter().filter(|one| one.0.nanos > time).map(|one| one.1).collect();
            let is_far = newest - time > bounds.nanos;
            first_of_run = first_of_run.or(Some(time)).filter(|_| is_far);
            let is_anew = first_of_run.map_or(false, |first| time - first >= bounds.nanos);
            let is_left = is_far || newer.len() > bounds.packets || newer.iter().sum::<usize>() > bounds.bytes;
            done.left += u64::from(is_left);
            if !is_left && time < newest {
                done.packets += 1;
                done.nanos = done.nanos.max((newest - time) as u64);
            }
            if is_anew {
                (begin, first_of_run) = (places.len(), None);
            }
            let (clock, nanos) = if is_anew { (clock + 1, time) } else { (clock, if is_left { newest } else { time }) };
            places.push((Place { clock, nanos, number }, *length));
        }
        let mut order: Vec<Place> = places.into_iter().map(|one| one.0).collect();
        order.sort();
        (order.into_iter().map(|place| place.number).collect(), done)
    }
}
