//! One connection captured at both ends: which connections are the same, and how far the two clocks are apart.

use std::collections::{BTreeSet, HashMap, HashSet};

use explain::answer::{At, ConnectionSaid, Files, Nanos, Place};
use explain::frames::{Frame, Frames};
use reports::Side;

use crate::summing::{SummedConnection, Whole};
use crate::wording::{count, list_of, SIDES};

/// So far may the quickest packets of a pair that was captured at one place seem to go back.
const AT_ONE_PLACE: Nanos = 1_000_000;
/// The kind of DATA (RFC 9113, 6.1).
const DATA: u8 = 0;

/// Why nothing is said of two captures.
#[derive(Debug, PartialEq, Eq)]
pub enum Apart {
    /// Nothing was audited in one of them.
    Nothing(String),
    Refused(String),
}

/// A connection as the capture of one end has it; times are those of the client's clock.
pub struct End<'a> {
    pub connection: &'a SummedConnection<'a>,
    pub files: &'a Files,
    pub frames: &'a Frames,
    /// By sides, the frames' numbers; the times at which they had come, where those that go back count as the latest
    /// before them; and the bytes of content before each frame.
    numbers: [Vec<u32>; 2],
    times: [Vec<Nanos>; 2],
    contents: [Vec<u64>; 2],
    /// The index of each frame among those of its side.
    indices: Vec<u32>,
    grants: HashMap<(Side, u32), Grants>,
}

/// The grants for one window: the frames, and what was granted up to each.
#[derive(Default)]
struct Grants {
    frames: Vec<u32>,
    sums: Vec<u64>,
}

/// A frame by its side, and its index among that side's: the same at both ends.
pub type FramePlace = (Side, usize);

/// The two ends of a connection. The clock of the server's capture is `ahead`, to within half of a round trip.
pub struct Both<'a> {
    pub ends: [End<'a>; 2],
    pub ahead: Nanos,
    pub round_trip: Nanos,
    pub drifts: bool,
}

/// The client's capture and the server's.
pub struct Joined<'a> {
    pub wholes: [&'a Whole<'a>; 2],
    pub pairs: Vec<Both<'a>>,
    /// Connections that one capture alone has.
    pub alone: [Vec<&'a ConnectionSaid>; 2],
}

impl<'a> End<'a> {
    fn new(connection: &'a SummedConnection<'a>, frames: &'a Frames, files: &'a Files) -> End<'a> {
        let mut end = End {
            connection,
            files,
            frames,
            numbers: Default::default(),
            times: Default::default(),
            contents: [vec![0], vec![0]],
            indices: Vec::with_capacity(frames.all().len()),
            grants: HashMap::new(),
        };
        for (number, frame) in (1..).zip(frames.all()) {
            let side = frame.side() as usize;
            end.indices.push(end.numbers[side].len() as u32);
            end.numbers[side].push(number);
            let before = end.contents[side].last().copied().unwrap_or(0);
            end.contents[side].push(before + if frame.kind() == DATA { u64::from(frame.length()) } else { 0 });
        }
        for grant in frames.grants() {
            let grants = end.grants.entry((grant.side, grant.stream)).or_default();
            let before = grants.sums.last().copied().unwrap_or(0);
            grants.frames.push(grant.frame);
            grants.sums.push(before + u64::from(grant.amount));
        }
        end
    }

    fn set_clock(&mut self, ahead: Nanos) {
        for side in SIDES {
            let mut latest = Nanos::MIN;
            let times = self.of_side(side).map(|frame| {
                latest = latest.max(frame.time - ahead);
                latest
            });
            self.times[side as usize] = times.collect();
        }
    }

    /// The frames of a side.
    fn of_side(&self, side: Side) -> impl Iterator<Item = &'a Frame> {
        self.frames.all().iter().filter(move |frame| frame.side() == side)
    }

    pub fn said(&self) -> &'a ConnectionSaid {
        self.connection.said
    }

    /// How many frames of a side there are.
    pub fn size(&self, side: Side) -> usize {
        self.numbers[side as usize].len()
    }

    pub fn frames(&self) -> u32 {
        self.indices.len() as u32
    }

    pub fn time(&self, (side, index): FramePlace) -> Nanos {
        self.times[side as usize].get(index).copied().unwrap_or(Nanos::MIN)
    }

    /// How many frames of a side this end had seen by a time.
    pub fn frames_by(&self, side: Side, time: Nanos) -> usize {
        self.times[side as usize].partition_point(|seen| *seen <= time)
    }

    /// The bytes of content in the first frames of a side.
    pub fn content(&self, side: Side, frames: usize) -> u64 {
        self.contents[side as usize].get(frames).copied().unwrap_or(0)
    }

    /// Where a frame is by its number, which counts from 1.
    pub fn place(&self, frame: u32) -> Option<FramePlace> {
        let at = usize::try_from(frame).ok()?.checked_sub(1)?;
        Some((self.frames.all().get(at)?.side(), *self.indices.get(at)? as usize))
    }

    pub fn number(&self, (side, index): FramePlace) -> Option<u32> {
        self.numbers[side as usize].get(index).copied()
    }

    pub fn at(&self, place: FramePlace) -> Option<At> {
        let number = self.number(place)?;
        let frame = self.frames.all().get(usize::try_from(number).ok()?.checked_sub(1)?)?;
        Some(At { packet: frame.packet(), time: frame.time, frame: number })
    }

    /// What was granted in a window up to a frame, all in all; none where nothing was at all.
    pub fn granted(&self, window: (Side, u32), frame: u32) -> Option<u64> {
        let grants = self.grants.get(&window)?;
        let count = grants.frames.partition_point(|one| *one <= frame);
        Some(count.checked_sub(1).map_or(0, |last| grants.sums[last]))
    }
}

impl<'a> Joined<'a> {
    /// The connections that both captures have; where there is none, the refusal says why.
    pub fn new(client: &'a Whole<'a>, server: &'a Whole<'a>) -> Result<Joined<'a>, Apart> {
        let wholes = [client, server];
        let [ours, theirs] = wholes.map(ends_of);
        let all = [&ours, &theirs].map(|ends| ends.iter().map(End::said).collect::<Vec<_>>());
        let mut by_initials: HashMap<_, _> = theirs.into_iter().map(|end| (end.frames.initials, end)).collect();
        let mut pairs = Vec::new();
        for end in ours {
            if let Some(other) = by_initials.remove(&end.frames.initials) {
                pairs.push(Both::new(end, other)?);
            }
        }
        for (side, some) in SIDES.into_iter().zip(&all) {
            if some.is_empty() {
                return Err(Apart::Nothing(format!("nothing was audited in the {side}'s capture")));
            }
        }
        if pairs.is_empty() {
            return Err(Apart::Refused(format!("no connection is in both captures: {}", why_none(&all))));
        }
        let alone = SIDES.map(|side| {
            let met: HashSet<u64> = pairs.iter().map(|both: &Both<'_>| both.end(side).said().number).collect();
            all[side as usize].iter().copied().filter(|said| !met.contains(&said.number)).collect()
        });
        Ok(Joined { wholes, pairs, alone })
    }
}

fn ends_of<'a>(whole: &'a Whole<'a>) -> Vec<End<'a>> {
    let files = &whole.answer.files;
    whole.audited().filter_map(|one| Some(End::new(one, one.said.all_frames.as_deref()?, files))).collect()
}

fn why_none(all: &[Vec<&ConnectionSaid>; 2]) -> String {
    let endpoints = |some: &Vec<&ConnectionSaid>| -> BTreeSet<(String, String)> {
        some.iter().map(|said| (said.client.clone(), said.server.clone())).collect()
    };
    let [ours, theirs] = [endpoints(&all[0]), endpoints(&all[1])];
    if let Some((client, server)) = ours.intersection(&theirs).next() {
        let why = "is in both, with other initial sequence numbers, so it is another one";
        return format!("{client} -> {server} {why}");
    }
    let names = |some: &Vec<&ConnectionSaid>| {
        list_of(&some.iter().map(|said| format!("{} -> {}", said.client, said.server)).collect::<Vec<_>>())
    };
    format!("the client's has {}; the server's {}", names(&all[0]), names(&all[1]))
}

impl<'a> Both<'a> {
    fn new(mut client: End<'a>, mut server: End<'a>) -> Result<Both<'a>, Apart> {
        let names = format!(
            "connection {} of the client's capture and {} of the server's",
            client.said().number,
            server.said().number
        );
        refuse_other_frames(&client, &server, &names)?;
        for (end, side, place) in [(&client, Side::Client, Place::AtServer), (&server, Side::Server, Place::AtClient)] {
            if end.said().captured_at == Some(place) {
                let other = side.other();
                let why = format!("the {side}'s capture was made at the {other}: exchange the two");
                return Err(Apart::Refused(why));
            }
        }
        let mut bounds = bounds_of(&client, &server)?;
        let drifts = bounds.round_trip() < -AT_ONE_PLACE;
        if drifts {
            let shaken = handshake_bounds(&client, &server).filter(|shaken| shaken.round_trip() >= -AT_ONE_PLACE);
            let why =
                || Apart::Refused(format!("{names}: packets arrive before they are sent; are the two exchanged?"));
            bounds = shaken.ok_or_else(why)?;
        }
        let ahead = (bounds.most + bounds.least).div_euclid(2);
        client.set_clock(0);
        server.set_clock(ahead);
        Ok(Both { ends: [client, server], ahead, round_trip: bounds.round_trip().max(0), drifts })
    }

    pub fn end(&self, side: Side) -> &End<'a> {
        &self.ends[side as usize]
    }

    /// Frames that one capture has, and the other has not.
    pub fn lost_words(&self) -> Vec<String> {
        let words = |side: Side| {
            let sizes = SIDES.map(|end| self.end(end).size(side));
            if sizes[0] == sizes[1] {
                return None;
            }
            let (more, less) = if sizes[0] > sizes[1] { (Side::Client, sizes[1]) } else { (Side::Server, sizes[0]) };
            let end = self.end(more);
            let packet = end.at((side, less)).map_or(0, |at| end.files.place(at.packet).1);
            let lacking = sizes[0].abs_diff(sizes[1]) as u64;
            let (frames, are) = (count(lacking, "frame"), if lacking == 1 { "is" } else { "are" });
            Some(format!("{frames} of the {side} from packet {packet} on {are} in the {more}'s capture alone"))
        };
        SIDES.into_iter().filter_map(words).collect()
    }
}

fn refuse_other_frames(client: &End<'_>, server: &End<'_>, names: &str) -> Result<(), Apart> {
    for side in SIDES {
        if !client.of_side(side).zip(server.of_side(side)).all(|(one, other)| one.is_as(other)) {
            let why = format!("{names} have other frames of the {side}: they are not one connection");
            return Err(Apart::Refused(why));
        }
    }
    Ok(())
}

/// By how much the server's clock is ahead, at most and at least.
#[derive(Clone, Copy)]
struct Bounds {
    most: Nanos,
    least: Nanos,
}

impl Bounds {
    fn round_trip(self) -> Nanos {
        self.most - self.least
    }
}

/// At most by the SYN, and at least by the SYN ACK.
fn handshake_bounds(client: &End<'_>, server: &End<'_>) -> Option<Bounds> {
    let (one, other) = (client.frames, server.frames);
    Some(Bounds { most: other.syn? - one.syn?, least: other.syn_ack? - one.syn_ack? })
}

/// Bounds by the handshake and by the quickest frame of each direction: no packet arrives before it was sent.
fn bounds_of(client: &End<'_>, server: &End<'_>) -> Result<Bounds, Apart> {
    let shaken = handshake_bounds(client, server);
    let took = |side: Side| client.of_side(side).zip(server.of_side(side)).map(|(here, there)| there.time - here.time);
    let most = took(Side::Client).chain(shaken.map(|bounds| bounds.most)).min();
    let least = took(Side::Server).chain(shaken.map(|bounds| bounds.least)).max();
    let why = || Apart::Refused("a side sent nothing, so the clocks cannot be set".to_string());
    most.zip(least).map(|(most, least)| Bounds { most, least }).ok_or_else(why)
}
