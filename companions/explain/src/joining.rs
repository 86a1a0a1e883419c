//! Which findings are claimed of connections that began before the capture, and how sure each is (docs/WHY.md, 13).

use import::{Courses, Fate, Unopened};
pub use joined::{assumed_of, sure_of, Sure};
use joined::{Assumed, Grade, How, Inferred, What};
use programs::Failure;
use reports::Finding;

use crate::answer::{Nanos, Request};
use crate::audit::{broken, Audit, Stalled};
use crate::beginning::Doubtful;

/// How a connection was joined, as the answer has it.
#[derive(Clone, Debug)]
pub struct JoinedSaid {
    pub how: How,
    pub behind: Behind,
    /// What is assumed of windows, in the order in which [`Inferred`] has them; and when something may have waited for
    /// one that was not seen to be used up.
    pub windows: Vec<(Assumed, Doubtful)>,
}

/// Whether a connection was joined behind a gap.
#[derive(Clone, Copy, Debug, PartialEq, Eq)]
pub enum Behind {
    No,
    /// It goes on with the connection of this number, and is the so-manieth to do so.
    Gap {
        connection: u64,
        turn: u32,
    },
    /// What was captured of it before the gap could not be joined.
    First,
}

impl Behind {
    /// Which connection it goes on with.
    pub fn connection(self) -> Option<u64> {
        match self {
            Behind::Gap { connection, .. } => Some(connection),
            Behind::No | Behind::First => None,
        }
    }
}

impl JoinedSaid {
    pub fn inferred(&self) -> Option<&Inferred> {
        match &self.how {
            How::Inferred(inferred) => Some(inferred),
            How::Syn | How::Answer | How::Handshake => None,
        }
    }

    /// Whether a request may have been stalled by a window of which that is not known.
    pub fn may_be_stalled(&self, request: &Request) -> bool {
        let is_its = |what: What| match what {
            What::Connection => true,
            What::Initial => !request.was_open,
            What::Stream(stream) => stream == request.stream,
        };
        let windows = self.windows.iter().filter(|one| is_its(one.0.what) && request.sides[one.0.side].content > 0);
        let is_within = |one: (Nanos, Nanos)| one.0 < request.until && one.1 > request.opened.time;
        windows.map(|one| one.1.map_or(one.0.grade == Grade::Broken, is_within)).any(|may_be| may_be)
    }
}

/// Whether a connection that began before the capture was joined, and both directions of it were captured: without the
/// grants of the other side no window can be told.
pub fn is_told(pair: &Unopened, courses: &Courses) -> bool {
    !pair.is_one_way && is_joined_and_told(pair.fate, courses)
}

/// Whether what follows a gap is joined, and told.
pub fn is_joined_and_told(fate: Fate, courses: &Courses) -> bool {
    let course = match fate {
        Fate::Joined(connection) => courses.connections.get(connection).and_then(Option::as_deref),
        Fate::NotAsked | Fate::Unjoined(_) => None,
    };
    course.map_or(false, |course| course.sides.iter().all(|side| side.last.is_some()))
}

/// Whether a fault is claimed, and if so whether what is inferred may be its reason.
fn claimed(inferred: &Inferred, fault: &Finding) -> Option<bool> {
    joined::claimed(inferred, fault.kind.name(), (fault.side as usize, fault.stream), fault.time)
}

/// Whether what is inferred may be the reason of a fault that is claimed.
pub fn is_by_inference(inferred: &Inferred, fault: &Finding) -> bool {
    claimed(inferred, fault).unwrap_or(true)
}

/// Takes what was made up off a report: frames count from the first that was captured on, and what is not claimed goes.
/// Answers false where rules are broken in the beginning: then nothing can be said.
pub fn without_beginning(audit: &mut Audit, inferred: &Inferred) -> Result<bool, Failure> {
    let made: u32 = inferred.made.iter().sum();
    let frames = audit.frames().unwrap_or(0);
    let real = frames.checked_sub(u64::from(made)).ok_or_else(|| broken("it has no beginning that was made up"))?;
    audit.form = reports::Form::Http2 { frames: real };
    let is_in_beginning = |frame: u32| frame <= made;
    if audit.faults.iter().any(|fault| fault.frame <= u64::from(made))
        || audit.stopped_at.map_or(false, is_in_beginning)
    {
        return Ok(false);
    }
    if let Some(stop) = audit.stopped_at {
        let error = audit.faults.last().filter(|fault| fault.frame == u64::from(stop));
        audit.stop = error.and_then(|fault| Nanos::try_from(fault.time).ok());
    }
    audit.faults.retain(|fault| !inferred.is_doubtful && claimed(inferred, fault).is_some());
    audit.faults.iter_mut().for_each(|fault| fault.frame -= u64::from(made));
    audit.stopped_at = audit.stopped_at.map(|frame| frame - made);
    // What goes on since before the capture may have begun with the frame that the cut divides.
    for one in audit.stalls.iter_mut().filter(|one| is_in_beginning(one.begin.frame)) {
        one.begin.time = inferred.divided[one.side].map_or(one.begin.time, |last| last.nanos);
    }
    let is_claimed = |one: &Stalled| {
        let was_before = one.end.map_or(false, |end| is_in_beginning(end.frame) || end.time < one.begin.time);
        !was_before && !inferred.is_doubtful && sure_of(inferred, one.side, one.stream, one.begin.time).is_some()
    };
    audit.stalls.retain(is_claimed);
    for stall in &mut audit.stalls {
        stall.begin.frame = stall.begin.frame.saturating_sub(made);
        stall.end.iter_mut().for_each(|end| end.frame = end.frame.saturating_sub(made));
    }
    Ok(true)
}

#[cfg(test)]
pub mod tests {
    use super::*;
    use crate::answer::Share;
    use crate::legs::account_rules::request;
    use joined::SideEvidence;
    use reports::{Kind, Side};

    const NONE: Option<Nanos> = None;

    pub fn assumed(side: usize, what: What, grade: Grade) -> Assumed {
        Assumed { side, what, credit: 101, least: 100, grade, bits: 20, touches: 2, pause: 5, with: None }
    }

    pub fn inferred(assumed: Vec<Assumed>) -> Inferred {
        Inferred {
            sides: SideEvidence::Fields,
            borders: [None; 2],
            made: [3, 2],
            assumed,
            acknowledged: [0; 2],
            longest: [0; 2],
            changed: [NONE, Some(50)],
            divided: [None; 2],
            open: vec![3, 5],
            is_doubtful: false,
        }
    }

    fn fault(kind: &str, stream: u64, time: u64) -> Finding {
        Finding { frame: 9, record: 9, time, side: Side::Server, kind: Kind::of(kind), stream, value: -1 }
    }

    #[test]
    fn how_sure_stalls_are() {
        let one = inferred(vec![
            assumed(1, What::Connection, Grade::Strong),
            assumed(1, What::Initial, Grade::Bound),
            assumed(1, What::Stream(3), Grade::Either),
            assumed(1, What::Stream(5), Grade::Broken),
        ]);
        let sure = |stream, time| sure_of(&one, 1, stream, time).map(Sure::name);
        assert_eq!([sure(0, 99), sure(3, 99), sure(5, 99)], [Some("strong"), Some("either"), None]);
        assert_eq!([sure(7, 50), sure(7, 51)], [None, Some("certain")], "behind settings that were seen");
        assert_eq!(sure_of(&one, 0, 0, 99), None, "nothing is known of it");
    }

    #[test]
    fn which_faults_are_claimed() {
        let one = inferred(Vec::new());
        let of = |one: &Inferred, kind, stream, time| claimed(one, &fault(kind, stream, time));
        assert_eq!(of(&one, "connection-overrun", 0, 99), None);
        assert_eq!([of(&one, "stream-overrun", 3, 99), of(&one, "stream-overrun", 7, 50)], [None, None]);
        assert_eq!(of(&one, "stream-overrun", 7, 51), Some(false));
        assert_eq!([of(&one, "wrong-size", 3, 1), of(&one, "not-opened", 9, 1)], [Some(false), Some(true)]);
    }
    #[test]
    fn windows_of_which_a_stall_cannot_be_told() {
        let mut one = request(0, [&[], &[(100, Share::Sending)]]);
        one.sides[1].content = 1;
        let may_be = |what, grade, doubtful| {
            let windows = vec![(assumed(1, what, grade), doubtful)];
            JoinedSaid { how: How::Syn, behind: Behind::No, windows }.may_be_stalled(&one)
        };
        assert!(may_be(What::Connection, Grade::Bound, Some((50, 200))));
        assert!(!may_be(What::Connection, Grade::Bound, Some((100, 200))), "when it was over");
        assert_eq!([Grade::Broken, Grade::Strong].map(|grade| may_be(What::Initial, grade, None)), [true, false]);
        assert_eq!([1, 3].map(|stream| may_be(What::Stream(stream), Grade::Broken, None)), [true, false]);
    }
}
