//! Collects courses of requests by a further pass over the frames, where there are hops.

use programs::{temporary_failure, Failure};

use crate::answer::Nanos;
use crate::cutter::{flag, kind, Cut, HEADER};
use crate::frame_log::{Entry, FrameReader, Logged};
use crate::learning::Partial;
use crate::legs::course::{ByteCourse, LEAST_STEPS, MOST_STEPS};
use crate::legs::facts::Facts;

/// The frames of both sides whose rests did not come, by the import's connections.
pub type Partials = Vec<Option<[Option<Box<Partial>>; 2]>>;

/// So many steps of all courses are kept.
const MOST_OF_ALL: usize = 1 << 21;

/// Requests of a connection by their streams, in order: most of these are odd numbers in a row.
#[derive(Clone, Default)]
struct Streams(Vec<(u32, u32)>);

impl Streams {
    fn get(&self, stream: u32) -> Option<usize> {
        let Streams(all) = self;
        let near = (stream.wrapping_sub(all.first()?.0) / 2) as usize;
        let found = match all.get(near) {
            Some(one) if one.0 == stream => one,
            _ => &all[all.binary_search_by_key(&stream, |one| one.0).ok()?],
        };
        Some(found.1 as usize)
    }
}

pub struct Collecting {
    /// By connections of the answer.
    places: Vec<Streams>,
    pub courses: Vec<[ByteCourse; 2]>,
    /// How many steps there are, how many of a course are kept, and at how many some are thinned.
    count: usize,
    most: usize,
    limit: usize,
}

/// The courses of requests on connections that are wanted, in the order of the facts.
pub fn collected(
    facts: &Facts,
    is_wanted: impl Fn(usize) -> bool,
    mut reader: FrameReader,
    places: &[Option<usize>],
    partial: &Partials,
) -> Result<Vec<[ByteCourse; 2]>, Failure> {
    let mut streams = vec![Streams::default(); facts.connections.len()];
    for (at, one) in (0..).zip(&facts.requests).filter(|one| is_wanted(one.1.connection)) {
        streams[one.connection].0.push((one.stream, at));
    }
    streams.iter_mut().for_each(|of_connection| of_connection.0.sort_unstable());
    let mut courses = Vec::new();
    courses.resize_with(facts.requests.len(), Default::default);
    let mut all = Collecting { places: streams, courses, count: 0, most: MOST_STEPS, limit: MOST_OF_ALL };
    let wanted: Vec<Option<usize>> = places.iter().map(|place| place.filter(|place| is_wanted(*place))).collect();
    let place = |number: usize| wanted.get(number).copied().flatten();
    while let Some(Entry { came, found }) = reader.next().map_err(|error| temporary_failure(&error))? {
        if let (Some(connection), Logged::Frames(frames)) = (place(came.connection), found) {
            frames.each(|cut| {
                all.take(connection, came.side, cut);
                Ok::<(), Failure>(())
            })?;
        }
    }
    for (number, sides) in partial.iter().enumerate() {
        if let (Some(connection), Some(sides)) = (place(number), sides) {
            for (side, one) in sides.iter().enumerate() {
                one.iter().for_each(|one| all.content(connection, side, &one.cut(), false));
            }
        }
    }
    Ok(all.courses)
}

impl Collecting {
    fn take(&mut self, connection: usize, side: usize, cut: &Cut<'_>) {
        let ends = cut.head.has(flag::END_STREAM);
        match cut.head.kind {
            kind::DATA => self.content(connection, side, cut, ends),
            kind::HEADERS => {
                if let (Some(course), Some(time)) = (self.course(connection, side, cut.head.stream), cut.times.last()) {
                    course.head(*time, ends);
                }
            }
            _ => {}
        }
    }

    fn course(&mut self, connection: usize, side: usize, stream: u32) -> Option<&mut ByteCourse> {
        let at = self.places.get(connection)?.get(stream)?;
        self.courses.get_mut(at).map(|courses| &mut courses[side])
    }

    fn content(&mut self, connection: usize, side: usize, cut: &Cut<'_>, ends: bool) {
        let (begin, end) = match cut.body(0) {
            Some(body) if cut.head.kind == kind::DATA => body,
            _ => return,
        };
        let most = self.most;
        let course = match self.course(connection, side, cut.head.stream) {
            Some(course) => course,
            None => return,
        };
        let before = course.len();
        course.content(came_of(cut, (begin as u64, end as u64)), ends);
        if course.len() > most {
            course.thin(most);
        }
        let after = course.len();
        self.count = (self.count + after).saturating_sub(before);
        if self.count > self.limit && self.most > LEAST_STEPS {
            self.thin();
        }
    }

    /// Keeps less of all.
    fn thin(&mut self) {
        self.most /= 2;
        let most = self.most;
        self.courses.iter_mut().flatten().for_each(|course| course.thin(most));
        self.count = self.courses.iter().flatten().map(ByteCourse::len).sum();
        self.limit = MOST_OF_ALL.max(2 * self.count);
    }
}

/// How much of the content of a frame had come by the times of its packets.
fn came_of<'a>(cut: &'a Cut<'_>, (begin, end): (u64, u64)) -> impl Iterator<Item = (Nanos, u64)> + 'a {
    let front = HEADER as u64 + begin;
    let came = move |bytes: &u32| u64::from(*bytes).saturating_sub(front).min(end - begin);
    let whole = cut.arrived.is_empty().then_some(end - begin);
    cut.times.iter().copied().zip(whole.into_iter().chain(cut.arrived.iter().map(came)))
}

#[cfg(test)]
mod tests {
    use super::*;
    use crate::cutter::Head;

    #[test]
    fn streams_in_a_row_and_others() {
        let streams = Streams(vec![(3, 9), (5, 8), (7, 5), (21, 4), (22, 1)]);
        assert_eq!([3, 7, 21, 22].map(|stream| streams.get(stream)), [Some(9), Some(5), Some(4), Some(1)]);
        assert_eq!([1, 2, 9, 23, u32::MAX].map(|stream| streams.get(stream)), [None; 5]);
        assert_eq!(Streams::default().get(1), None);
    }

    #[test]
    fn bytes_count_as_they_come() {
        let head = Head { length: 100, kind: kind::DATA, flags: flag::PADDED, stream: 1 };
        let cut = Cut { head, payload: &[9], times: &[1, 2, 3, 4], arrived: &[5, 10, 60, 109] };
        let body = cut.body(0).map(|(begin, end)| (begin as u64, end as u64)).expect("a body");
        assert_eq!(body, (1, 91));
        let came: Vec<_> = came_of(&cut, body).collect();
        assert_eq!(came, [(1, 0), (2, 0), (3, 50), (4, 90)], "neither the header nor padding counts");
        let whole = Cut { times: &[1], arrived: &[], ..cut };
        assert_eq!(came_of(&whole, body).collect::<Vec<_>>(), [(1, 90)]);
    }
}
