//! Why each stall of the report was one: nothing was granted, it was granted late, or the window is too small.

use crate::answer::{At, Nanos, RoundTrip, StallEnd, StallSaid, StallWhy};
use crate::audit::{StallAt, Stalled};
use crate::cutter::kind;
use crate::side_of;
use crate::tcp::Tcp;

/// A grant that comes within one and a half round trips and 1 ms was given at once.
const AT_ONCE: i128 = 1_000_000;
/// So many of a connection's longest stalls are looked into for credit that cancelled streams used.
const MOST_LEAKS: usize = 16;

/// By the frame that ended it.
pub fn ended_by(frame: u8) -> StallEnd {
    match frame {
        kind::SETTINGS => StallEnd::Settings,
        kind::RST_STREAM => StallEnd::Reset,
        kind::DATA | kind::HEADERS => StallEnd::EndOfStream,
        _ => StallEnd::Grant,
    }
}

fn place(at: &StallAt) -> At {
    At { packet: 0, time: at.time, frame: at.frame }
}

/// A stall, of which the packets are not known yet; one that has an end was ended by a grant, as far as is known.
pub fn stall_said(one: &Stalled, tcp: &Tcp, unseen: Nanos, round_trip: &RoundTrip) -> StallSaid {
    let begin = place(&one.begin);
    let mut said = StallSaid {
        side: side_of(one.side),
        stream: one.stream,
        begin,
        end: one.end.as_ref().map(place),
        until: begin.time,
        nanos: 0,
        ended_by: None,
        why: StallWhy::GrantedNothing,
        late: 0,
        sure: None,
        credits: (one.begin.credit, one.end.map(|end| end.credit)),
    };
    match one.end {
        None => {
            let closing = tcp.closing(begin.time).at.map_or(begin.time, |at| at.time);
            said.until = begin.time.max(unseen.min(closing));
            said.nanos = said.until - begin.time;
        }
        Some(end) => {
            said.until = end.time;
            said.nanos = end.time - begin.time;
            said.late = said.nanos.saturating_sub(round_trip.to_side(1 - one.side)).max(0);
            end_by(&mut said, StallEnd::Grant, tcp, round_trip);
        }
    }
    said
}

/// Says what ended a stall, and why it was one.
pub fn end_by(said: &mut StallSaid, ended_by: StallEnd, tcp: &Tcp, round_trip: &RoundTrip) {
    let granting = 1 - said.side as usize;
    said.ended_by = Some(ended_by);
    said.why = match ended_by {
        StallEnd::EndOfStream => StallWhy::NotNeeded,
        StallEnd::Reset => StallWhy::GrantedNothing,
        _ if i128::from(said.nanos) * 2 <= i128::from(round_trip.to_side(granting)) * 3 + 2 * AT_ONCE => {
            StallWhy::RoundTrip
        }
        _ if tcp.lost(granting, said.begin.time, said.until) => StallWhy::GrantLost,
        _ => StallWhy::GrantedLate,
    };
}

/// The longest stalls of the connection's windows that cancelled streams may have made.
pub fn may_be_leaks(stalls: &[StallSaid]) -> Vec<usize> {
    let is_one = |at: &usize| {
        stalls[*at].stream == 0 && matches!(stalls[*at].why, StallWhy::GrantedNothing | StallWhy::GrantedLate)
    };
    let first = stalls.first().map_or(0, |one| one.side as usize);
    let mut found: Vec<usize> = (0..stalls.len()).filter(is_one).collect();
    found.sort_by_key(|at| (std::cmp::Reverse(stalls[*at].nanos), stalls[*at].side as usize != first));
    found.truncate(MOST_LEAKS);
    found
}

#[cfg(test)]
mod tests {
    use super::*;
    use crate::tcp::at_of;
    use captures::Arrival;
    use import::{Held, TcpCourse, Why};

    const MS: Nanos = 1_000_000;

    fn tcp(held: Vec<Held>) -> Tcp {
        let last = Arrival { packet: 9, nanos: 900 * MS };
        let mut course = TcpCourse {
            syn: last,
            syn_ack: None,
            ack: None,
            sides: Default::default(),
            ways: [None; 2],
            held,
            again: Vec::new(),
        };
        Tcp::new(&mut course, at_of(last))
    }

    fn stall(begin: Nanos, end: Option<Nanos>) -> Stalled {
        let at = |frame, time| StallAt { frame, record: 0, time, credit: 0 };
        Stalled { side: 1, stream: 0, begin: at(1, begin), end: end.map(|end| at(2, end)) }
    }

    fn round_trip() -> RoundTrip {
        RoundTrip { to: Some([20 * MS, 0]), ..RoundTrip::default() }
    }

    #[test]
    fn a_stall_without_an_end() {
        let said = stall_said(&stall(100 * MS, None), &tcp(Vec::new()), Nanos::MAX, &round_trip());
        assert_eq!((said.why, said.until, said.nanos), (StallWhy::GrantedNothing, 900 * MS, 800 * MS));
        let said = stall_said(&stall(100 * MS, None), &tcp(Vec::new()), 300 * MS, &round_trip());
        assert_eq!(said.nanos, 200 * MS, "behind that nothing was seen");
    }

    #[test]
    fn reasons() {
        let why = |nanos, held| {
            let said = stall_said(&stall(0, Some(nanos)), &tcp(held), Nanos::MAX, &round_trip());
            (said.why, said.late)
        };
        assert_eq!(why(31 * MS, Vec::new()), (StallWhy::RoundTrip, 11 * MS));
        assert_eq!(why(31 * MS + 1, Vec::new()).0, StallWhy::GrantedLate);
        let resent = Held { begin: 10 * MS, end: 35 * MS, first: 5, last: None, bytes: 1, why: Why::Resent, side: 0 };
        assert_eq!(why(40 * MS, vec![resent]).0, StallWhy::GrantLost);
        let mut said = stall_said(&stall(0, Some(40 * MS)), &tcp(Vec::new()), Nanos::MAX, &round_trip());
        for (frame, ended, why) in [
            (kind::DATA, StallEnd::EndOfStream, StallWhy::NotNeeded),
            (kind::RST_STREAM, StallEnd::Reset, StallWhy::GrantedNothing),
            (kind::SETTINGS, StallEnd::Settings, StallWhy::GrantedLate),
        ] {
            end_by(&mut said, ended_by(frame), &tcp(Vec::new()), &round_trip());
            assert_eq!((said.ended_by, said.why), (Some(ended), why));
        }
    }

    #[test]
    fn the_longest_are_looked_into() {
        let stalls: Vec<StallSaid> = (0..20)
            .map(|at| stall_said(&stall(0, Some((40 + at) * MS)), &tcp(Vec::new()), Nanos::MAX, &round_trip()))
            .collect();
        assert_eq!(may_be_leaks(&stalls), (4..20).rev().collect::<Vec<_>>());
    }
}
