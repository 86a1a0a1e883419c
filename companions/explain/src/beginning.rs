//! The beginning of a connection that was made up, as its frames come; and windows that were not seen to be used up,
//! behind it (docs/WHY.md, 13).

use std::collections::HashMap;
use std::rc::Rc;

use joined::{Assumed, Grade, Inferred, What};

use crate::answer::Nanos;
use crate::seen::Key;

/// From a content at which a window had its least credit to the next one behind the last of these.
pub type Doubtful = Option<(Nanos, Nanos)>;

/// A window that was not seen to be used up: the credit that is left of what is assumed where it had the least, and
/// when something may have waited for it.
#[derive(Clone, Copy, Debug)]
struct Bound {
    left: i64,
    doubtful: Doubtful,
    is_low: bool,
}

/// Content of a stream: when its packets came first and last, whether it ends the stream, and what it leaves of the
/// stream's window and of the connection's.
#[derive(Clone, Copy, Debug)]
pub struct Content {
    pub side: usize,
    pub stream: u32,
    pub first: Nanos,
    pub last: Nanos,
    pub ends: bool,
    pub left: [Option<i64>; 2],
}

/// The beginning of a connection that was made up, as frames come.
#[derive(Debug)]
pub struct Beginning {
    pub inferred: Rc<Inferred>,
    /// How many frames of it come still.
    pub left: u32,
    bounds: HashMap<Key, Bound>,
}

/// The key of a window of a side; one key stands for the windows of all streams that opened since.
fn key_of(one: &Assumed) -> Key {
    let stream = match one.what {
        What::Connection => 0,
        What::Initial => u32::MAX,
        What::Stream(stream) => stream,
    };
    (one.side, stream)
}

/// The key of a stream's window: its own only if the stream was open before the capture.
pub fn key_of_stream(inferred: &Inferred, side: usize, stream: u32) -> Key {
    let was_open = inferred.open.binary_search(&stream).is_ok();
    (side, if was_open { stream } else { u32::MAX })
}

impl Beginning {
    pub fn new(inferred: Rc<Inferred>) -> Beginning {
        let bounded = inferred.assumed.iter().filter(|one| one.grade == Grade::Bound);
        let bound = |one: &Assumed| Bound { left: one.credit.saturating_sub(one.least), doubtful: None, is_low: false };
        let bounds = bounded.map(|one| (key_of(one), bound(one))).collect();
        let left = inferred.made.iter().sum();
        Beginning { inferred, left, bounds }
    }

    /// Content came.
    pub fn content(&mut self, content: &Content) {
        if self.bounds.is_empty() {
            return;
        }
        let Content { side, stream, first, last, ends, left: [own, connection] } = *content;
        let key = key_of_stream(&self.inferred, side, stream);
        for (key, credit, is_over) in [(key, own, ends), ((side, 0), connection, false)] {
            if let (Some(bound), Some(credit)) = (self.bounds.get_mut(&key), credit) {
                bound.content((first, last), credit, is_over);
            }
        }
    }

    /// When something may have waited for each window that was not seen to be used up.
    pub fn doubtful(&self) -> impl Iterator<Item = (Key, (Nanos, Nanos))> + '_ {
        self.bounds.iter().filter_map(|(key, bound)| Some((*key, bound.doubtful?)))
    }

    /// What is assumed of windows, and when something may have waited for each.
    pub fn windows(&self) -> Vec<(Assumed, Doubtful)> {
        let doubtful = |one: &Assumed| self.bounds.get(&key_of(one)).and_then(|bound| bound.doubtful);
        self.inferred.assumed.iter().map(|one| (*one, doubtful(one))).collect()
    }
}

impl Bound {
    fn content(&mut self, (first, last): (Nanos, Nanos), credit: i64, is_over: bool) {
        if let (true, Some(doubtful)) = (self.is_low, &mut self.doubtful) {
            doubtful.1 = first;
        }
        self.is_low = credit <= self.left && !is_over;
        if self.is_low {
            self.doubtful = Some((self.doubtful.map_or(last, |doubtful| doubtful.0), Nanos::MAX));
        }
    }
}

#[cfg(test)]
mod tests {
    use super::*;
    use crate::joining::tests::{assumed, inferred};

    #[test]
    fn where_even_the_bound_shows_no_stall() {
        let windows = vec![assumed(1, What::Stream(3), Grade::Bound), assumed(1, What::Stream(5), Grade::Bound)];
        let mut beginning = Beginning::new(Rc::new(inferred(windows)));
        let content = |stream, first, ends, own| {
            let left = [Some(own), None];
            Content { side: 1, stream, first, last: first + 1, ends, left }
        };
        for one in
            [content(3, 10, false, 2), content(3, 20, true, 1), content(5, 30, false, 1), content(5, 40, false, 2)]
        {
            beginning.content(&one);
        }
        let found: Vec<_> = beginning.windows().iter().map(|one| one.1).collect();
        assert_eq!((found, beginning.left), (vec![None, Some((31, 40))], 5));
    }
}
