//! Which findings of a joined connection's report are claimed, and how sure each is (docs/WHY.md, 13).

use cutter::Nanos;

use crate::assumed::{Assumed, Grade, What};
use crate::joiner::Inferred;

/// Rules that a frame breaks by itself, whatever was before it.
const CERTAIN: [&str; 7] = [
    "wrong-stream",
    "wrong-size",
    "bad-padding",
    "bad-setting",
    "zero-connection-grant",
    "zero-stream-grant",
    "bad-priority",
];
/// Rules about credits.
const OF_WINDOWS: [&str; 5] =
    ["connection-overrun", "stream-overrun", "connection-overflow", "setting-overflow", "stream-overflow"];

/// How sure a stall is that is claimed.
#[derive(Clone, Copy, Debug, PartialEq, Eq)]
pub enum Sure {
    /// All that its window depends on was seen.
    Certain,
    Strong,
    Likely,
    /// This window or another one was used up.
    Either,
}

impl Sure {
    /// As documents and rows have it.
    pub fn name(self) -> &'static str {
        match self {
            Sure::Certain => "certain",
            Sure::Strong => "strong",
            Sure::Likely => "likely",
            Sure::Either => "either",
        }
    }

    fn of(grade: Grade) -> Option<Sure> {
        match grade {
            Grade::Strong => Some(Sure::Strong),
            Grade::Likely => Some(Sure::Likely),
            Grade::Either => Some(Sure::Either),
            Grade::Broken | Grade::Bound => None,
        }
    }
}

/// What is assumed of the window of a stream, or of the connection.
pub fn assumed_of(inferred: &Inferred, side: usize, stream: u32) -> Option<&Assumed> {
    let what = match stream {
        0 => What::Connection,
        _ if inferred.open.binary_search(&stream).is_ok() => What::Stream(stream),
        _ => What::Initial,
    };
    inferred.assumed.iter().find(|one| (one.side, one.what) == (side, what))
}

/// Whether all that the window of a stream depends on was seen at some time: it opened since the capture began, and an
/// initial window that was seen is in force.
fn is_known(inferred: &Inferred, side: usize, stream: u32, time: Nanos) -> bool {
    let is_new = stream != 0 && inferred.open.binary_search(&stream).is_err();
    is_new && inferred.changed[side].map_or(false, |changed| changed < time)
}

/// How sure a stall is that began at some time; none where it is not claimed.
pub fn sure_of(inferred: &Inferred, side: usize, stream: u32, begin: Nanos) -> Option<Sure> {
    match is_known(inferred, side, stream, begin) {
        true => Some(Sure::Certain),
        false => Sure::of(assumed_of(inferred, side, stream)?.grade),
    }
}

/// Whether a fault of this kind is claimed, on the window of a side's stream and at some time; and if so whether what
/// is inferred may be its reason.
pub fn claimed(inferred: &Inferred, kind: &str, (side, stream): (usize, u64), time: u64) -> Option<bool> {
    if OF_WINDOWS.contains(&kind) {
        let time = Nanos::try_from(time).unwrap_or(0);
        let stream = u32::try_from(stream).unwrap_or(0);
        return is_known(inferred, side, stream, time).then_some(false);
    }
    Some(!CERTAIN.contains(&kind))
}
