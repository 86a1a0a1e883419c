//! The beginning that is made up for a connection: what its sides would have sent for its windows and streams to stand
//! as they did when the capture began.

use cutter::FIRST_CREDIT;

use crate::assumed::Credits;
use crate::frames::{placeholders, Script, HEADER_TABLE_SIZE, INITIAL_WINDOW, MAX_FRAME_SIZE, TABLE};

const CLIENT: usize = 0;
const SERVER: usize = 1;
/// The initial window until all streams have their credits: content takes it down, and the last SETTINGS take all
/// streams down by as much as it is too large, below zero too (RFC 9113, 6.9.2).
const HIGH: u32 = 1 << 30;
const USUAL_FRAME: u32 = 1 << 14;

/// How a connection stood; lists are by sides, 0 being the client.
#[derive(Clone, Debug)]
pub struct Stand {
    pub credits: [Credits; 2],
    /// Whether field blocks of a side follow.
    pub has_blocks: [bool; 2],
    /// The lowest stream that a client opened since.
    pub first_opened: Option<u32>,
    /// The longest frame of each side.
    pub longest: [u32; 2],
    /// SETTINGS that each side acknowledges later.
    pub acknowledged_later: [u32; 2],
    /// PINGs of the client, which nothing rests on.
    pub pings: u32,
}

/// What the sides send.
pub fn beginning_of(stand: &Stand) -> Script {
    let mut script = Script::default();
    write(&mut script, stand);
    script
}

/// How many frames each side sends.
pub fn frames_of(stand: &Stand) -> [u32; 2] {
    let mut script = Script { is_counted: true, ..Script::default() };
    write(&mut script, stand);
    script.frames
}

fn write(script: &mut Script, stand: &Stand) {
    open_connection(script, stand);
    let carrier = open_streams(script, stand);
    for side in [CLIENT, SERVER] {
        move_streams(script, stand, side);
        move_connection(script, stand, side, &carrier);
    }
    if carrier.is_made {
        carrier.stream.iter().for_each(|stream| [CLIENT, SERVER].iter().for_each(|side| script.end(*side, *stream)));
    }
    for side in [CLIENT, SERVER] {
        script.settings(1 - side, &[(INITIAL_WINDOW, stand.credits[side].initial as u32)]);
        script.acknowledge(side);
    }
    (0..stand.pings).for_each(|_| script.ping(CLIENT));
    for side in [CLIENT, SERVER] {
        (0..stand.acknowledged_later[side]).for_each(|_| script.settings(1 - side, &[]));
    }
}

fn open_connection(script: &mut Script, stand: &Stand) {
    script.preface(CLIENT);
    for side in [CLIENT, SERVER] {
        let mut pairs = vec![(HEADER_TABLE_SIZE, TABLE), (INITIAL_WINDOW, HIGH)];
        let longest = stand.longest[1 - side];
        if longest > USUAL_FRAME {
            pairs.push((MAX_FRAME_SIZE, longest));
        }
        script.settings(side, &pairs);
    }
    [SERVER, CLIENT].iter().for_each(|side| script.acknowledge(*side));
}

/// A stream for field blocks and content that belong to none.
struct Carrier {
    stream: Option<u32>,
    /// Whether it was not open, and ends.
    is_made: bool,
}

fn open_streams(script: &mut Script, stand: &Stand) -> Carrier {
    let block_of = |side: usize| if stand.has_blocks[side] { placeholders() } else { Vec::new() };
    let streams = &stand.credits[CLIENT].streams;
    let odd = || streams.iter().map(|(id, _)| *id).filter(|id| id % 2 == 1);
    let is_free = odd().next() != Some(1) && stand.first_opened != Some(1);
    let carrier = match is_free {
        true => Carrier { stream: Some(1), is_made: true },
        false => Carrier { stream: odd().next(), is_made: false },
    };
    let made = carrier.stream.filter(|_| carrier.is_made);
    for (at, stream) in made.into_iter().chain(odd()).enumerate() {
        let block = if at == 0 { block_of(CLIENT) } else { Vec::new() };
        script.headers(CLIENT, stream, &block);
    }
    if let Some(stream) = carrier.stream {
        script.headers(SERVER, stream, &block_of(SERVER));
        for (promised, _) in streams.iter().filter(|(id, _)| id % 2 == 0) {
            script.promise(SERVER, stream, *promised);
        }
    }
    carrier
}

/// Brings the windows of streams beside the initial window to where their credits are beside it.
fn move_streams(script: &mut Script, stand: &Stand, side: usize) {
    let credits = &stand.credits[side];
    let lower = |credit: i64| (credits.initial - credit).max(0);
    // A client sends nothing on a stream that is promised.
    let streams = || credits.streams.iter().filter(|(id, _)| side == SERVER || id % 2 == 1);
    script.grant(1 - side, 0, streams().map(|(_, credit)| lower(*credit)).sum());
    for (id, credit) in streams() {
        script.content(side, *id, lower(*credit));
        script.grant(1 - side, *id, (credit - credits.initial).max(0));
    }
}

fn move_connection(script: &mut Script, stand: &Stand, side: usize, carrier: &Carrier) {
    let credit = stand.credits[side].connection;
    script.grant(1 - side, 0, (credit - FIRST_CREDIT).max(0));
    let lower = (FIRST_CREDIT - credit).max(0);
    if let Some(stream) = carrier.stream {
        script.content(side, stream, lower);
        script.grant(1 - side, stream, if carrier.is_made { 0 } else { lower });
    }
}

#[cfg(test)]
mod tests {
    use super::*;

    fn stand(change: impl Fn(&mut Stand)) -> Script {
        let credits = || Credits { connection: FIRST_CREDIT, initial: 100, ..Credits::default() };
        let mut stand = Stand {
            credits: [credits(), credits()],
            has_blocks: [true, false],
            first_opened: Some(9),
            longest: [USUAL_FRAME; 2],
            acknowledged_later: [0; 2],
            pings: 0,
        };
        change(&mut stand);
        beginning_of(&stand)
    }

    /// Each frame by side, type, stream and length.
    fn frames(script: &Script) -> Vec<(usize, u8, u32, u32)> {
        let mut found = Vec::new();
        let mut cutters = [CLIENT, SERVER].map(|side| cutter::Cutter::new(side == CLIENT));
        for (side, bytes) in &script.steps {
            cutters[*side].take(
                bytes,
                0,
                |_| 0,
                |cut| {
                    found.push((*side, cut.head.kind, cut.head.stream, cut.head.length));
                },
            );
        }
        found
    }

    #[test]
    fn nothing_was_open() {
        let blocks = placeholders().len() as u32;
        let wanted = [(0, 4, 0, 12), (1, 4, 0, 12), (1, 4, 0, 0), (0, 4, 0, 0), (0, 1, 1, blocks), (1, 1, 1, 0)];
        let ends = [(0, 0, 1, 0), (1, 0, 1, 0), (1, 4, 0, 6), (0, 4, 0, 0), (0, 4, 0, 6), (1, 4, 0, 0)];
        assert_eq!(frames(&stand(|_| ())), [&wanted[..], &ends].concat());
    }

    #[test]
    fn credits_above_and_below() {
        let script = stand(|stand| {
            stand.credits[SERVER].connection = 5;
            stand.credits[CLIENT].connection = FIRST_CREDIT + 7;
            stand.credits.iter_mut().for_each(|credits| credits.streams = vec![(3, 100), (4, 100), (5, 100)]);
            stand.credits[SERVER].streams = vec![(3, -10), (4, 100), (5, 150)];
        });
        let found = frames(&script);
        let has = |side, kind, stream, length| found.contains(&(side, kind, stream, length));
        assert!(has(1, 0, 3, 110) && has(0, 8, 5, 4) && has(1, 5, 1, 4) && has(0, 1, 5, 0), "{found:?}");
        assert_eq!(found.iter().filter(|one| one.1 == 0 && one.2 == 1).map(|one| one.3).sum::<u32>(), 65_530);
        assert_eq!(found.iter().filter(|one| one.1 == 8 && one.0 == 1).count(), 1, "of the client's connection");
    }

    /// The first stream is one of those that were open, or that open: none is made.
    #[test]
    fn where_no_stream_is_free() {
        let script = stand(|stand| stand.first_opened = Some(1));
        assert!(frames(&script).iter().all(|one| one.1 != 1));
        let script = stand(|stand| {
            stand.credits.iter_mut().for_each(|credits| credits.streams = vec![(1, 100)]);
            stand.credits[SERVER].connection = 65_000;
        });
        let found = frames(&script);
        assert!(found.contains(&(1, 0, 1, 535)) && found.contains(&(0, 8, 1, 4)), "{found:?}");
        assert!(!found.contains(&(0, 0, 1, 0)), "it goes on");
    }

    #[test]
    fn settings_that_are_acknowledged_later_and_long_frames() {
        let script = stand(|stand| {
            stand.acknowledged_later = [2, 0];
            stand.longest = [USUAL_FRAME, 30_000];
        });
        let found = frames(&script);
        assert_eq!(found[found.len() - 2..], [(1, 4, 0, 0), (1, 4, 0, 0)]);
        assert_eq!((found[0], found[1]), ((0, 4, 0, 18), (1, 4, 0, 12)));
    }
}
