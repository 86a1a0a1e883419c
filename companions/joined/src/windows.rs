//! The windows of one sender (RFC 9113, 6.9): credits beside the unknown ones with which they began, and the evidence
//! on these. What is kept of a window does not grow with what is sent through it.

use cutter::Nanos;

pub use crate::bounded::BoundedWindow;
use crate::bounded::{AtBound, NEVER};
use crate::evidence::{Bound, Evidence, Pause, Touch, LIKELY};
use crate::usual::Usual;

/// When a content came, and how long it is.
#[derive(Clone, Copy, Debug)]
pub struct Content {
    pub first: Nanos,
    pub last: Nanos,
    pub length: u32,
    /// Whether it ends its stream, so that no window cut it short.
    pub is_end: bool,
}

/// All windows of a sender but those of its streams.
#[derive(Clone, Debug)]
pub struct Sender {
    usual: Usual,
    credit: i64,
    pause: Option<Pause>,
    /// Above this the credit of a stream that opened since is not at its bound.
    opened: i64,
    held: Option<Held>,
    pub connection: Evidence,
    /// Evidence of the initial window that was in force at the beginning, by the streams that opened since.
    pub initial: Evidence,
    /// The initial window that is in force since settings that were seen, the least that ever was, when it first
    /// changed, and how often.
    in_force: Option<i64>,
    pub least_in_force: Option<i64>,
    pub changed: Option<Nanos>,
    changes: u32,
    /// Whether the other side answered FLOW_CONTROL_ERROR on the connection, and on a stream that opened since.
    pub is_refused: bool,
    pub is_initial_refused: bool,
}

/// The last pause at a bound of the connection's window that a grant ended: content of any stream may have followed it.
#[derive(Clone, Copy, Debug)]
struct Held {
    since: Nanos,
    granted: Nanos,
    /// Which bound that was.
    turn: u32,
}

/// Contents of one time.
pub struct Run<'a> {
    sender: &'a mut Sender,
    credit: i64,
    low: i64,
    opened: i64,
    contents: u32,
}

impl Run<'_> {
    /// Takes content of a stream that opened since, unless it pauses or comes to a bound. Answers whether that is so.
    #[inline(always)]
    pub fn takes(&mut self, window: &mut BoundedWindow, length: u32) -> bool {
        let (credit, own) = (self.credit - i64::from(length), window.credit - i64::from(length));
        if !window.is_plain || own <= self.opened || credit <= self.low {
            return false;
        }
        (self.credit, window.credit) = (credit, own);
        self.sender.usual.length(length);
        self.contents += 1;
        true
    }

    /// Answers how many contents there were, how many bytes, and the longest of all so far.
    #[inline]
    pub fn end(self, time: Nanos) -> (u32, i64, u32) {
        let Run { sender, credit, contents, .. } = self;
        let bytes = std::mem::replace(&mut sender.credit, credit) - credit;
        if contents > 0 {
            sender.usual.times(time, time, contents);
        }
        (contents, bytes, sender.usual.longest())
    }
}

/// A pause that content ended: of the stream's window where it is at its bound, and of the connection's; and whether
/// the connection's was at its bound too in the pause of the stream, whatever content ended that.
#[derive(Clone, Copy)]
struct Touched {
    connection: Option<Touch>,
    stream: Option<Touch>,
    is_held: bool,
}

impl Sender {
    /// Begins a sender of which nothing is known but what comes behind this time.
    pub fn new(beginning: Nanos) -> Sender {
        Sender {
            usual: Usual::default(),
            credit: 0,
            pause: Some(Pause::from_the_beginning(beginning)),
            opened: i64::MAX,
            held: None,
            connection: Evidence::default(),
            initial: Evidence::default(),
            in_force: None,
            least_in_force: None,
            changed: None,
            changes: 0,
            is_refused: false,
            is_initial_refused: false,
        }
    }

    /// The other side's settings are in force from here on.
    pub fn change(&mut self, time: Nanos, initial: u32) {
        self.changed.get_or_insert(time);
        let initial = i64::from(initial);
        self.in_force = Some(initial);
        self.least_in_force = Some(self.least_in_force.map_or(initial, |least| least.min(initial)));
        self.changes = self.changes.wrapping_add(1);
        self.opened = -initial;
    }

    /// Whether settings were seen that changed the initial window.
    pub fn has_changed(&self) -> bool {
        self.in_force.is_some()
    }

    pub fn are_windows(&self) -> bool {
        self.usual.are_windows()
    }

    /// Contents of one time, which neither end pauses nor come to bounds; none while the connection's window pauses.
    #[inline]
    pub fn run(&mut self) -> Option<Run<'_>> {
        match (self.pause, self.connection.low) {
            (None, Some(low)) => Some(Run { credit: self.credit, low, opened: self.opened, contents: 0, sender: self }),
            _ => None,
        }
    }

    /// Content came on a stream, whose window may not be known any more.
    pub fn content(&mut self, window: Option<&mut BoundedWindow>, content: Content) {
        match window.filter(|window| window.is_live) {
            Some(window) => {
                if is_over(&self.pause) || is_over(&window.pause()) {
                    self.end_pauses(Some(&mut *window), content);
                }
                self.lower_stream(window, content);
            }
            None if is_over(&self.pause) => self.end_pauses(None, content),
            None => {}
        }
        let before = self.credit;
        self.credit -= i64::from(content.length);
        match self.connection.content(before, self.credit) {
            Bound::None => self.pause = None,
            bound => self.pause = pause_at(bound, content),
        }
        self.usual.content(content.first, content.last, content.length);
    }

    /// Content comes behind pauses that grants ended.
    #[inline(never)]
    fn end_pauses(&mut self, window: Option<&mut BoundedWindow>, content: Content) {
        let spoken = window.as_ref().map_or(NEVER, |window| window.spoken);
        let touched = Touched {
            connection: self.pause.and_then(|pause| pause.touch(content.first, spoken)),
            stream: window.as_ref().and_then(|window| self.touch_of(window, content.first)),
            is_held: window.as_ref().map_or(false, |window| self.is_held_in(window.pause())),
        };
        if let Some((since, granted)) = self.pause.and_then(|pause| pause.ended()) {
            self.held = Some(Held { since, granted, turn: self.connection.turn });
        }
        if let Some(window) = window {
            self.tell_stream(window, touched);
        } else if let Some(touch) = touched.connection {
            tell(&mut self.connection, &touch, &self.usual);
        }
    }

    /// Whether content ends a pause of a stream's window.
    fn touch_of(&self, window: &BoundedWindow, content: Nanos) -> Option<Touch> {
        let known = window.at_bound.as_ref().filter(|known| known.change == self.changes)?;
        known.pause?.touch(content, window.spoken)
    }

    /// Whether the connection's window was at its bound in a pause of a stream's.
    fn is_held_in(&self, pause: Option<Pause>) -> bool {
        match (self.held, pause.and_then(|pause| pause.ended())) {
            (Some(held), Some((since, granted))) => {
                held.turn == self.connection.turn && held.since < granted && since < held.granted
            }
            _ => false,
        }
    }

    /// Takes what a pause tells to the windows that were at their bounds.
    fn tell_stream(&mut self, window: &mut BoundedWindow, touched: Touched) {
        let Sender { connection, initial, in_force, usual, .. } = self;
        let credit = window.credit + in_force.unwrap_or(0);
        let open = window.at_bound.as_mut().and_then(|known| known.open.as_deref_mut());
        match (touched.connection, touched.stream, (evidence(initial, *in_force, open), credit)) {
            (None, None, _) => {}
            (Some(of_connection), Some(of_stream), (Some(evidence), _)) => {
                tell_both(connection, evidence, [&of_connection, &of_stream], usual);
            }
            (None, Some(touch), (Some(evidence), _)) if touched.is_held && touch.length.is_some() => {
                of_turn(evidence, connection);
                evidence.shared += evidence.worth(&touch, usual);
            }
            (_, Some(touch), (Some(evidence), _)) => tell(evidence, &touch, usual),
            // A window that is known explains the pause by itself.
            (Some(_), Some(_), (None, credit)) if credit <= 0 => {}
            (Some(touch), _, _) => tell(connection, &touch, usual),
            (None, Some(_), (None, _)) => {}
        }
    }

    #[inline]
    fn lower_stream(&mut self, window: &mut BoundedWindow, content: Content) {
        if !window.lower(content.length, self.in_force.unwrap_or(0), (self.changes, self.opened)) {
            self.reach_bound(window, content);
        }
    }

    /// The credit of a window may be at its bound, or below it.
    #[inline(never)]
    fn reach_bound(&mut self, window: &mut BoundedWindow, content: Content) {
        let credit = window.credit + self.in_force.unwrap_or(0);
        let known = window.at_bound.get_or_insert_with(|| Box::new(AtBound::new(None)));
        known.change = self.changes;
        let evidence = evidence(&mut self.initial, self.in_force, known.open.as_deref_mut());
        let (before, after) = (credit + i64::from(content.length), credit);
        let (bound, low) = match evidence {
            Some(evidence) => {
                if evidence.low.map_or(true, |low| after < low) {
                    give_back(&mut self.connection, evidence);
                }
                (evidence.content(before, after), evidence.low)
            }
            None if after <= 0 => (Bound::Old, None),
            None => (Bound::None, None),
        };
        known.bound = low.unwrap_or(i64::MAX);
        known.pause = pause_at(bound, content);
        window.is_plain = known.pause.is_none() && known.open.is_none();
        if self.in_force.is_none() {
            self.opened = self.initial.low.unwrap_or(i64::MAX);
        }
    }

    /// The other side grants so much on the connection.
    pub fn grant(&mut self, time: Nanos, amount: u32) {
        self.credit += i64::from(amount);
        self.pause.iter_mut().for_each(|pause| pause.grant(time));
        self.usual.grant();
    }

    /// The other side grants so much on a stream.
    pub fn grant_stream(&mut self, window: &mut BoundedWindow, time: Nanos, amount: u32) {
        window.grant(time, amount);
        self.usual.grant();
    }
}

/// What is known of a stream's window, if anything of it is unknown.
#[inline]
fn evidence<'a>(
    initial: &'a mut Evidence,
    in_force: Option<i64>,
    open: Option<&'a mut [Evidence; 2]>,
) -> Option<&'a mut Evidence> {
    match (open, in_force) {
        (Some(open), in_force) => Some(&mut open[usize::from(in_force.is_some())]),
        (None, None) => Some(initial),
        (None, Some(_)) => None,
    }
}

/// Whether a grant ended a pause.
#[inline]
fn is_over(pause: &Option<Pause>) -> bool {
    pause.as_ref().map_or(false, |pause| pause.ended().is_some())
}

#[inline]
fn pause_at(bound: Bound, content: Content) -> Option<Pause> {
    match bound {
        Bound::None => None,
        Bound::Old | Bound::New => Some(Pause::behind(content.last, content.length, content.is_end)),
    }
}

/// Tells of a touch of a window that alone was at its bound.
fn tell(evidence: &mut Evidence, touch: &Touch, usual: &Usual) {
    if touch.length.is_none() {
        evidence.silent = touch.bits(usual);
    } else {
        evidence.alone += evidence.worth(touch, usual);
    }
}

/// Tells of touches of both, so that each may explain the pause. A silence is not the connection's if that had credit
/// long before content came.
fn tell_both(connection: &mut Evidence, stream: &mut Evidence, touches: [&Touch; 2], usual: &Usual) {
    let [of_connection, of_stream] = touches;
    if of_stream.length.is_none() || of_connection.length.is_none() {
        stream.is_silent_shared = of_connection.length.is_none() && of_connection.is_soon();
        return tell(stream, of_stream, usual);
    }
    of_turn(stream, connection);
    let lent = connection.worth(of_connection, usual);
    connection.shared += lent;
    stream.lent += lent;
    stream.shared += stream.worth(of_stream, usual);
}

/// What was shared with a bound of the connection's window that it does not have any more is the stream's alone.
fn of_turn(stream: &mut Evidence, connection: &Evidence) {
    if stream.of_turn != connection.turn {
        stream.alone += stream.shared;
        stream.shared = 0.0;
        stream.lent = 0.0;
        stream.of_turn = connection.turn;
    }
}

/// A stream's window was not at its bound after all, so the connection's alone was.
fn give_back(connection: &mut Evidence, stream: &mut Evidence) {
    if stream.of_turn == connection.turn {
        connection.shared -= stream.lent;
        connection.alone += stream.lent;
        stream.lent = 0.0;
    }
}

/// What the windows of a stream, or those of new ones, and the connection's tell of each other.
pub struct Weighed {
    pub alone: f64,
    /// The bits of pauses that the other window does not explain by itself.
    pub shared: f64,
}

/// A stream's window beside the connection's.
pub fn weighed(stream: &Evidence, connection: &Evidence) -> Weighed {
    if stream.of_turn != connection.turn {
        return Weighed { alone: stream.alone + stream.shared, shared: 0.0 };
    }
    let shared = if connection.alone >= LIKELY { 0.0 } else { stream.shared };
    Weighed { alone: stream.alone, shared }
}

/// What the connection's window shares with one that does not explain it by itself.
pub fn lent_by(connection: &Evidence, stream: &Evidence) -> f64 {
    match stream.of_turn == connection.turn && stream.alone < LIKELY {
        true => stream.lent,
        false => 0.0,
    }
}

#[cfg(test)]
mod tests;
