//! The requests of a connection. They are held packed, and told one by one: ends, shares and causes rest on what is
//! known of the connection.

use std::cell::RefCell;
use std::rc::Rc;

use crate::answer::{Cause, Direction, Ended, How, Nanos, Request, Share, Shares};
use crate::causes::{no_cause, Held, LEAST_HELD};
use crate::legs::{Brief, LegKnown, Lived, Sent};
use crate::names::{name_of, Texts};
use crate::packed::{pack, unpack, unpack_lives, unpack_outline, unpack_uncaused};
use crate::seen::Seen;
use crate::side_of;
use crate::stream::{self, RequestFields, Stream};

/// The requests of a connection, in the order of their openings.
#[derive(Clone, Debug, Default)]
pub struct Requests {
    /// Requests that are told from nothing else.
    all: Vec<Request>,
    packed: Option<Rc<(Packed, Seen)>>,
    texts: Option<Rc<Texts>>,
    /// How many are told, where it is not all.
    most: Option<usize>,
}

/// Room for a request that is told, one after the other.
pub struct Room(Stream);

impl Default for Room {
    fn default() -> Room {
        Room(Stream::empty())
    }
}

/// What is told of a request that is packed: all of it, which of one without a cause takes less; or not its names and
/// spans.
#[derive(Clone, Copy, PartialEq, Eq)]
enum Wanted {
    All,
    Uncaused,
    Sums,
}

impl Requests {
    pub fn of(packed: Rc<(Packed, Seen)>) -> Requests {
        Requests { all: Vec::new(), packed: Some(packed), texts: None, most: None }
    }

    /// Leaves out the requests that were opened from this packet on.
    pub fn end_before(&mut self, packet: u64) {
        let is_before = |index: usize| self.get(index).map_or(false, |request| request.opened.packet < packet);
        let (mut least, mut most) = (0, self.len());
        while least < most {
            let middle = (least + most) / 2;
            match is_before(middle) {
                true => least = middle + 1,
                false => most = middle,
            }
        }
        self.most = Some(least);
    }

    /// All texts are known.
    pub fn with_texts(&mut self, texts: &Rc<Texts>) {
        self.texts = Some(texts.clone());
    }

    /// The stream of a request.
    pub fn stream_of(&self, index: usize) -> Option<u32> {
        let mut room = Stream::empty();
        let packed = self.outline(index, &mut room).map(|_| room.number);
        packed.or_else(|| self.all.get(index).map(|one| one.stream))
    }

    /// All texts, by whose numbers streams name requests.
    pub fn texts(&self) -> Option<&Texts> {
        self.texts.as_deref()
    }

    /// Reads the outline of a request's stream into some room, and answers what is known of its connection.
    pub fn outline(&self, index: usize, room: &mut Stream) -> Option<&Seen> {
        let packed = self.packed.as_ref()?;
        unpack_outline(packed.0.bytes_of(index)?, room);
        Some(&packed.1)
    }

    /// Takes what hops are sought by of those that a client opened while the capture ran, where it was kept.
    pub fn take_briefs(&self) -> impl Iterator<Item = Brief> + '_ {
        self.packed.iter().flat_map(move |packed| {
            let is_known = move |one: &Brief| one.stream != 0 && !packed.1.about.was_open(one.stream);
            packed.0.take_briefs().into_iter().take(self.len()).filter(is_known)
        })
    }

    pub fn push(&mut self, request: Request) {
        self.all.push(request);
    }

    pub fn len(&self) -> usize {
        let all = self.all.len() + self.packed.as_ref().map_or(0, |packed| packed.0.places.len());
        self.most.map_or(all, |most| most.min(all))
    }

    pub fn is_empty(&self) -> bool {
        self.len() == 0
    }

    pub fn get(&self, index: usize) -> Option<Request> {
        self.tell(index, Wanted::All, &mut Stream::empty(), |request| request)
    }

    /// Tells someone of a request; one that is packed is read into some room.
    #[inline]
    fn tell<T>(&self, index: usize, wanted: Wanted, room: &mut Stream, to: impl FnOnce(Request) -> T) -> Option<T> {
        let (packed, seen) = match &self.packed {
            Some(packed) => &**packed,
            None => return self.all.get(index).cloned().map(to),
        };
        if !packed.read(index, wanted, room) {
            return None;
        }
        let texts = self.texts.as_deref().filter(|_| wanted != Wanted::Sums);
        Some(to(told(room, seen, texts, wanted)))
    }

    /// What is told of a packed request as one leg of a proxy's two, of which that much is known: it is read into some
    /// room.
    pub fn leg<'a>(&self, index: usize, known: &LegKnown, room: &'a mut Stream) -> Option<Lived<'a>> {
        let (packed, seen) = &**self.packed.as_ref()?;
        let bytes = packed.bytes_of(index)?;
        unpack_lives(bytes, known.opened, true, room);
        let is_divided = |side: usize| {
            let life = &room.sides[side].life;
            life.at == life.until && life.until == known.ends[side]
        };
        if may_be_of_leg(room, known, seen) || !is_divided(0) || !is_divided(1) {
            unpack(bytes, packed.round_trip, true, room);
            let cause = told(&mut room.clone(), seen, None, Wanted::Sums).cause;
            for (side, end) in known.ends.into_iter().enumerate() {
                room.sides[side].finish(&seen.about.holding(side, room.number), end, false);
            }
            return Some(lived(room, known, cause));
        }
        Some(lived(room, known, no_cause()))
    }

    /// Each one by itself, in the order of openings.
    pub fn iter(&self) -> impl Iterator<Item = Request> + '_ {
        let mut room = Stream::empty();
        (0..self.len()).filter_map(move |index| self.tell(index, Wanted::All, &mut room, |request| request))
    }

    /// Tells of the requests at these places in turn, and seeks no cause of those that are known to have none.
    pub fn each_at<E>(
        &self,
        places: impl Iterator<Item = usize>,
        uncaused: &[bool],
        mut each: impl FnMut(usize, &Request) -> Result<(), E>,
    ) -> Result<(), E> {
        let mut room = Stream::empty();
        for index in places {
            let wanted = if uncaused.get(index) == Some(&true) { Wanted::Uncaused } else { Wanted::All };
            let mut spans = [None, None];
            let done = self.tell(index, wanted, &mut room, |request| {
                let done = each(index, &request);
                spans = request.sides.map(|said| said.spans);
                done
            });
            done.unwrap_or(Ok(()))?;
            // The next one has its spans in the same room.
            for (side, spans) in room.sides.iter_mut().zip(spans) {
                side.life.spans = spans;
            }
        }
        Ok(())
    }

    /// Tells of all without names and spans where they are packed: each is read into some room.
    pub fn each_unnamed(&self, room: &mut Room, mut each: impl FnMut(usize, &Request)) {
        for index in 0..self.len() {
            self.tell(index, Wanted::Sums, &mut room.0, |request| each(index, &request));
        }
    }
}

/// Streams in the order of their openings, some hundred bytes each.
#[derive(Debug, Default)]
pub struct Packed {
    bytes: Vec<u8>,
    /// Where each begins, and the length that there is for it.
    places: Vec<(u64, u32)>,
    /// Bytes that hold nothing any more.
    idle: usize,
    round_trip: Nanos,
    /// What hops are sought by, of each stream; none where no hops are sought.
    briefs: Option<RefCell<Vec<Brief>>>,
}

/// So many bytes most streams take.
const USUAL: usize = 128;
/// The place of a stream that is not packed yet.
const NOWHERE: (u64, u32) = (u64::MAX, 0);

impl Packed {
    pub fn new(round_trip: Nanos) -> Packed {
        Packed { round_trip, ..Packed::default() }
    }

    /// What hops are sought by is kept of all.
    pub fn keep_briefs(&mut self) {
        self.briefs = Some(RefCell::default());
    }

    fn take_briefs(&self) -> Vec<Brief> {
        self.briefs.as_ref().map(RefCell::take).unwrap_or_default()
    }

    fn put_brief(&mut self, stream: &Stream) {
        if let Some(briefs) = &mut self.briefs {
            let (briefs, index) = (briefs.get_mut(), stream.order as usize);
            let brief = Brief::of(stream).unwrap_or_default();
            if briefs.len() == index {
                return briefs.push(brief);
            }
            briefs.resize(briefs.len().max(index + 1), Brief::default());
            briefs[index] = brief;
        }
    }

    /// Puts a stream in its place in order of opening: behind all others, or where it stood before if it fits there.
    pub fn put(&mut self, stream: &Stream) {
        self.put_brief(stream);
        let behind = self.bytes.len();
        self.bytes.reserve(USUAL);
        pack(stream, &mut self.bytes);
        let length = (self.bytes.len() - behind) as u32;
        let index = stream.order as usize;
        if self.places.len() <= index {
            self.places.resize(index + 1, NOWHERE);
        }
        let (before, most) = self.places[index];
        if length <= most {
            self.bytes.copy_within(behind.., before as usize);
            self.bytes.truncate(behind);
        } else {
            self.idle += most as usize;
            self.places[index] = (behind as u64, length);
            self.tidy();
        }
    }

    /// Lets go of what is idle, where that is most.
    fn tidy(&mut self) {
        if self.idle * 2 <= self.bytes.len() {
            return;
        }
        let mut bytes = Vec::with_capacity(self.bytes.len() - self.idle);
        for place in self.places.iter_mut().filter(|place| **place != NOWHERE) {
            let begin = bytes.len() as u64;
            bytes.extend_from_slice(&self.bytes[place.0 as usize..][..place.1 as usize]);
            place.0 = begin;
        }
        (self.bytes, self.idle) = (bytes, 0);
    }

    /// The stream that was opened behind so many others, if it is packed.
    pub fn get(&self, index: usize) -> Option<Stream> {
        let mut stream = Stream::empty();
        self.read(index, Wanted::All, &mut stream).then_some(stream)
    }

    /// Reads it into the place of another one, if it is packed.
    fn read(&self, index: usize, wanted: Wanted, stream: &mut Stream) -> bool {
        let bytes = match self.bytes_of(index) {
            Some(bytes) => bytes,
            None => return false,
        };
        match wanted {
            Wanted::Uncaused => unpack_uncaused(bytes, self.round_trip, stream),
            Wanted::All | Wanted::Sums => unpack(bytes, self.round_trip, wanted == Wanted::All, stream),
        }
        true
    }

    fn bytes_of(&self, index: usize) -> Option<&[u8]> {
        let (begin, length) = *self.places.get(index).filter(|place| **place != NOWHERE)?;
        self.bytes.get(begin as usize..)?.get(..length as usize)
    }

    /// Ends the list: no more come.
    pub fn end(&mut self) {
        self.bytes.shrink_to_fit();
        self.places.shrink_to_fit();
        self.briefs.iter_mut().for_each(|briefs| briefs.get_mut().shrink_to_fit());
    }
}

/// The request that a stream is.
#[inline]
fn told(stream: &mut Stream, seen: &Seen, texts: Option<&Texts>, wanted: Wanted) -> Request {
    let ends = ends_of(stream, seen);
    let mut request = uncaused(stream, seen, texts, &ends);
    if wanted != Wanted::Uncaused {
        seek_cause(&mut request, stream, seen, &ends);
    }
    request
}

/// Seeks what held back a request, and what that alone is told from.
fn seek_cause(request: &mut Request, stream: &Stream, seen: &Seen, ends: &[End; 2]) {
    for side in (0..2).filter(|side| ends[*side].is_seen) {
        let end = stream.opened.time + request.sides[side].nanos;
        request.sides[side].waited = waited(&stream.sides[side], side, seen, end);
    }
    let found = Held { seen, stream, request, ends: [ends[0].ended.how, ends[1].ended.how] }.found();
    request.cause = found.cause;
    request.held = found.held;
    request.is_hung = found.hung.is_some();
    request.hung_nanos = found.hung.unwrap_or(0);
}

/// How a direction ended, and whether it was seen.
struct End {
    ended: Ended,
    is_seen: bool,
}

impl End {
    fn time(&self) -> Nanos {
        self.ended.at.map_or(0, |at| at.time)
    }
}

fn ends_of(stream: &Stream, seen: &Seen) -> [End; 2] {
    let was_open = seen.about.was_open(stream.number);
    [0, 1].map(|side| match was_open && is_unseen(stream, side) {
        true => {
            let (side, at) = (Some(side_of(side)), Some(stream.opened));
            End { ended: Ended { how: How::EndStream, side, code: None, at }, is_seen: false }
        }
        false => End { ended: seen.end_of(stream, side), is_seen: true },
    })
}

/// The request that a stream is, whose directions ended so, without its cause, and without what causes alone are told
/// from.
fn uncaused(stream: &mut Stream, seen: &Seen, texts: Option<&Texts>, ends: &[End; 2]) -> Request {
    let last = if ends[1].time() > ends[0].time() { &ends[1] } else { &ends[0] };
    let times = ends.iter().filter_map(|end| end.ended.at).map(|at| at.time);
    let until = times.fold(stream.opened.time, Nanos::max);
    let [method, path, authority] = names(stream.request, texts);
    let fields = stream.answer.fields;
    Request {
        stream: stream.number,
        name: name_of(method.as_deref(), path.as_deref().or(authority.as_deref())),
        method,
        path,
        authority,
        status: fields.and_then(|fields| fields.status),
        grpc_status: stream.answer.grpc_status.or_else(|| fields?.grpc_status),
        promised_on: stream.promised_on,
        opened: stream.opened,
        ended: last.ended,
        until,
        sides: [direction(stream, 0, seen, &ends[0]), direction(stream, 1, seen, &ends[1])],
        cause: no_cause(),
        held: 0,
        is_hung: false,
        hung_nanos: 0,
        is_end_unseen: seen.is_end_unseen(&last.ended, until),
        was_open: seen.about.was_open(stream.number),
    }
}

fn lived<'a>(stream: &'a Stream, known: &LegKnown, cause: Cause) -> Lived<'a> {
    let LegKnown { opened, ends, has_content } = *known;
    let sent = |side: usize| {
        let spans = stream.sides[side].life.spans.as_deref();
        Sent { nanos: ends[side] - opened, spans, has_content: has_content[side] }
    };
    Lived { opened, until: ends[0].max(ends[1]), sides: [sent(0), sent(1)], cause }
}

/// Whether the cause may be one that tells who held back a leg: a window that does not show, or TCP.
fn may_be_of_leg(stream: &Stream, known: &LegKnown, seen: &Seen) -> bool {
    (0..2).any(|side| {
        let one = &stream.sides[side];
        let is_paused = known.has_content[side] && (one.unshown_nanos > 0 || seen.unshown[side].is_some());
        is_paused || one.life.shares[Share::Tcp as usize] >= LEAST_HELD
    })
}

/// Whether a direction of a stream that was open when the capture began was not seen, as where it had ended before.
fn is_unseen(stream: &Stream, side: usize) -> bool {
    let [one, other] = [&stream.sides[side], &stream.sides[1 - side]];
    one.first.is_none() && (other.first.is_some() || stream.reset.is_none())
}

/// What is told of such a direction: nothing.
fn unseen(found: Direction) -> Direction {
    let spans = found.spans.map(|_| Vec::new());
    Direction { nanos: 0, shares: Shares::default(), spans, end: None, ..found }
}

fn names(asked: Option<RequestFields>, texts: Option<&Texts>) -> [Option<Rc<str>>; 3] {
    let asked = asked.unwrap_or_default();
    [asked.method, asked.path, asked.authority].map(|number| texts?.get(number).cloned())
}

fn direction(stream: &mut Stream, side: usize, seen: &Seen, end: &End) -> Direction {
    let (begin, number) = (stream.opened.time, stream.number);
    let one = &mut stream.sides[side];
    let until = end.ended.at.map_or(begin, |at| at.time).max(begin);
    one.finish(&seen.about.holding(side, number), until, false);
    let found = Direction {
        nanos: until - begin,
        shares: one.life.shares,
        spans: one.life.spans.take(),
        content: one.content,
        first: one.first,
        end: end.ended.at,
        stalls: seen.about.stalls.get(side, number).map_or(0, |one| one.0),
        waited: 0,
    };
    match end.is_seen {
        true => found,
        false => unseen(found),
    }
}

/// How long a side took to begin after the other one's last frame before that, without TCP and the way.
fn waited(one: &stream::Direction, side: usize, seen: &Seen, end: Nanos) -> Nanos {
    let waiting = one.life.shares[Share::Waiting as usize];
    if waiting == 0 {
        return 0;
    }
    let (asked, begins) = (one.asked.time, one.first.map_or(end, |first| first.time.min(end)));
    let held = seen.about.courses[side].waits(asked, begins, asked);
    let held = held.iter().fold(0, |sum: Nanos, one| sum.saturating_add(one.1 - one.0));
    let own = begins.saturating_sub(asked).saturating_sub(held).min(waiting);
    own.saturating_sub(seen.about.round_trip.to_side(side)).max(0)
}
