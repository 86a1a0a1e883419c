//! The round trip and the place of capture, by times of acknowledgements and reactions (docs/WHY.md, 5).

use crate::answer::Nanos;
use crate::reactions::{Quickest, LEAST_REACTION};

/// Below this both ends are too near to tell them apart.
pub const NEAR: Nanos = 1_000_000;
/// A side is near where the other one's answers take so many times as long.
const TIMES: Nanos = 4;
const LEAST_PAUSE: Nanos = 1_000_000;
/// The three quickest reactions lie within 25 % of each other.
const ALIKE: (i128, i128) = (5, 4);

/// By what the round trip is known.
#[derive(Clone, Copy, Debug, PartialEq, Eq)]
pub enum Source {
    Tcp,
    Http2,
}

/// Nanoseconds from the place of the capture to each side and back, by TCP's acknowledgements or by HTTP/2's reactions.
/// Each pair is by sides.
#[derive(Clone, Copy, Debug, Default, PartialEq, Eq)]
pub struct RoundTrip {
    pub source: Option<Source>,
    pub to: Option<[Nanos; 2]>,
    pub tcp: [Option<Nanos>; 2],
    pub http2: [Option<Nanos>; 2],
}

/// Where a connection was captured.
#[derive(Clone, Copy, Debug, PartialEq, Eq)]
pub enum Place {
    AtClient,
    AtServer,
    Between,
}

/// TCP's acknowledgements count, unless a side's reactions show that something between ends TCP; and where there are
/// none of a side, its quickest reaction.
pub fn round_trip_of(tcp: [Option<Nanos>; 2], quickest: &[Quickest; 2]) -> RoundTrip {
    let known = tcp.iter().flatten().fold(0, |sum: Nanos, way| sum.saturating_add(*way));
    let http2 = [0, 1].map(|side| quickest[side].nanos());
    let is_farther = [0, 1].map(|side| shows_more(&quickest[side], known));
    let to = [0, 1].map(|side| if is_farther[side] { http2[side] } else { tcp[side].or(http2[side]) });
    let to = match to {
        [Some(client), Some(server)] => Some([client, server]),
        _ => None,
    };
    let is_tcp = |side: usize| !is_farther[side] && tcp[side].is_some();
    let source = to.map(|_| if is_tcp(0) && is_tcp(1) { Source::Tcp } else { Source::Http2 });
    RoundTrip { source, to, tcp, http2 }
}

/// Whether a side's reactions tell of a way and not of an application that took long: they are far above TCP's round
/// trip, and so alike, though of several kinds or at several times, that no application took them.
fn shows_more(quickest: &Quickest, known: Nanos) -> bool {
    let [one, two, three] = match quickest.three() {
        Some(three) => three,
        None => return false,
    };
    let least = one.0;
    let is_far = least >= LEAST_REACTION && least >= known.saturating_mul(TIMES);
    let is_alike = i128::from(three.0) * ALIKE.1 <= i128::from(least) * ALIKE.0;
    // One moment in which an application wakes ends all that it kept waiting.
    let began = one.1.max(two.1).max(three.1);
    let ended = [one, two, three].iter().map(|one| one.1.saturating_add(one.0)).min();
    is_far && is_alike && ended.map_or(false, |ended| began >= ended)
}

impl RoundTrip {
    pub fn nanos(&self) -> Option<Nanos> {
        self.to.map(|[client, server]| client.saturating_add(server))
    }

    /// How long an answer of this side takes at least, as seen at the place of the capture.
    pub fn to_side(&self, side: usize) -> Nanos {
        self.to.and_then(|both| both.get(side).copied()).unwrap_or(0)
    }

    /// A stretch without packets up to this long is a pause within sending: one and a half round trips, 1 ms at least.
    ///
    /// TCP may send what its congestion window allows once in a round trip.
    pub fn pause(&self) -> Nanos {
        let longest = i128::from(self.nanos().unwrap_or(0)) * 3 / 2;
        LEAST_PAUSE.max(Nanos::try_from(longest).unwrap_or(Nanos::MAX))
    }

    /// The side whose answers come at once, while those of the other take a round trip.
    pub fn place(&self) -> Option<Place> {
        let [client, server] = self.to.filter(|both| both[0].saturating_add(both[1]) >= NEAR)?;
        Some(match () {
            () if server > client.saturating_mul(TIMES) => Place::AtClient,
            () if client > server.saturating_mul(TIMES) => Place::AtServer,
            () => Place::Between,
        })
    }
}

#[cfg(test)]
mod tests {
    use super::*;
    use crate::reactions::Reaction;

    const MS: Nanos = 1_000_000;

    fn quickest(reactions: &[(Nanos, Nanos, Reaction)]) -> Quickest {
        let mut found = Quickest::default();
        reactions.iter().for_each(|one| found.add(one.2, one.0 * MS, one.1 * MS));
        found
    }

    /// Whether reactions of the server say more than TCP's 1 ms.
    fn counts(reactions: &[(Nanos, Nanos, Reaction)]) -> bool {
        let found = round_trip_of([Some(0), Some(MS)], &[Quickest::default(), quickest(reactions)]);
        assert_eq!(found.tcp, [Some(0), Some(MS)]);
        found.source == Some(Source::Http2)
    }

    #[test]
    fn reactions_count_where_something_ends_tcp() {
        use Reaction::{Answer, Grant, Ping, Settings};
        let pings = [(0, 41, Ping), (50, 92, Ping), (100, 142, Ping)];
        let found = round_trip_of([Some(0), Some(MS)], &[Quickest::default(), quickest(&pings)]);
        assert_eq!((found.source, found.to), (Some(Source::Http2), Some([0, 41 * MS])));
        assert!(counts(&[(0, 41, Settings), (1, 50, Answer), (60, 110, Grant)]), "two kinds");
        assert!(
            counts(&[(0, 49, Settings), (50, 91, Grant), (52, 93, Grant), (100, 141, Grant)]),
            "also behind others"
        );
        assert!(!counts(&[(0, 41, Answer), (50, 92, Answer), (100, 142, Answer)]), "a slow application");
        assert!(!counts(&pings[..2]), "two alone");
        assert!(!counts(&[(0, 41, Ping), (50, 92, Ping), (100, 152, Ping)]), "not alike");
        assert!(!counts(&[(0, 9, Ping), (50, 59, Ping), (100, 109, Ping)]), "not far");
        assert!(!counts(&[(0, 922, Settings), (1, 970, Answer), (2, 971, Answer)]), "it woke once");
        assert!(!counts(&[(0, 41, Ping), (50, 92, Ping), (100, 142, Ping), (200, 201, Ping)]), "the least counts");
        let near = round_trip_of([Some(0), Some(11 * MS)], &[Quickest::default(), quickest(&pings)]);
        assert_eq!(near.source, Some(Source::Tcp));
        let alone = round_trip_of([None; 2], &[quickest(&pings[..1]), quickest(&pings[..1])]);
        assert_eq!((alone.source, alone.nanos()), (Some(Source::Http2), Some(82 * MS)));
        assert_eq!(round_trip_of([Some(1), None], &Default::default()).nanos(), None);
    }

    #[test]
    fn places() {
        let place = |client, server| round_trip_of([Some(client), Some(server)], &Default::default()).place();
        assert_eq!(place(0, MS), Some(Place::AtClient));
        assert_eq!(place(100 * MS, 25 * MS - 1), Some(Place::AtServer));
        assert_eq!(place(100 * MS, 25 * MS), Some(Place::Between));
        assert_eq!(place(0, MS - 1), None);
    }

    #[test]
    fn pauses() {
        assert_eq!(RoundTrip::default().pause(), MS);
        assert_eq!(round_trip_of([Some(MS); 2], &Default::default()).pause(), 3 * MS);
    }
}
