//! What limits an answer: what was not audited, what was lost, clocks that go back, and what cannot be seen
//! (docs/WHY.md, 8).

use std::collections::{BTreeMap, HashSet};

use import::{help_for, Courses, Older, Summary, Uncaptured};
use reports::grouped;

use crate::answer::{Answer, ConnectionSaid, Files, NotAudited, Place, RoundTrip, Warning};
use crate::joining::is_told;
use crate::passed::passed_over;
use crate::rounds::NEAR;
use crate::side_of;
use crate::tcp::at_of;
use crate::words::{count, reason_words, time_of};

pub const ONE_DIRECTION: &str = "one-direction";

/// How many pairs were not seen to open, and were not joined: those of which one direction was captured, and others.
pub struct Unjoined {
    one_way: u64,
    others: u64,
}

impl Unjoined {
    pub fn of(summary: &Summary, courses: &Courses) -> Unjoined {
        let mut found = Unjoined { one_way: 0, others: 0 };
        for pair in summary.unopened.iter().filter(|pair| !is_told(pair, courses)) {
            *(if pair.is_one_way { &mut found.one_way } else { &mut found.others }) += 1;
        }
        found
    }
}

/// What the capture holds beside what was audited, by reasons.
pub fn not_audited(answer: &Answer, summary: &Summary, unjoined: &Unjoined) -> Vec<NotAudited> {
    let mut reasons: BTreeMap<&str, u64> = BTreeMap::new();
    for one in answer.connections.iter().filter(|one| !one.is_audited()) {
        let reason = if one.reason.is_empty() { one.outcome.name() } else { &one.reason };
        *reasons.entry(reason).or_default() += 1;
    }
    let mut said: Vec<NotAudited> = Vec::new();
    let mut say = |reason: &str, count: u64, text: String| said.push(NotAudited { reason: reason.into(), count, text });
    if unjoined.one_way > 0 {
        *reasons.entry(ONE_DIRECTION).or_default() += unjoined.one_way;
    }
    reasons.iter().for_each(|(why, number)| say(why, *number, reason_words(why, &count(*number, "connection"))));
    if unjoined.others > 0 {
        say("unopened", unjoined.others, count(unjoined.others, "connection") + " that began before the capture");
    }
    for (name, number, words) in passed_over(summary, answer.audited().next().is_none()) {
        say(name, number, format!("{} {words}", count(number, "packet")));
    }
    said
}

fn warning(kind: &'static str, text: String) -> Warning {
    Warning { kind, text, connection: None, at: None }
}

/// What stands before all else. `names` are those that the import has for connections, in their order.
pub fn doubts_of(answer: &Answer, summary: &Summary, doubled: Option<Warning>) -> Vec<Warning> {
    let mut said = clocks(&answer.files, summary);
    if answer.audited().next().is_none() {
        let packets = count(answer.packets, "packet");
        let text =
            format!("nothing was audited: {packets}, and no HTTP/2 connection that could be read from its beginning");
        said.push(warning("nothing-audited", text));
    }
    said.extend(cut(answer));
    said.extend(doubled);
    said.extend(one_direction(answer, summary));
    said.extend(dropped(answer, summary));
    let going_on = |one: &ConnectionSaid| one.joined.as_ref().and_then(|joined| joined.behind.connection());
    let going_on: HashSet<u64> = answer.connections.iter().filter_map(going_on).collect();
    for one in &answer.connections {
        for (side, offset) in &one.gaps {
            let offset = grouped(*offset);
            let behind = match going_on.contains(&one.number) {
                true => "the connection is joined again behind that",
                false => "what is found behind it may not have happened",
            };
            let text = format!("bytes of the {side} are missing from offset {offset} on: {behind}");
            said.push(Warning { kind: "gap", text, connection: Some(one.number), at: Some(one.opened) });
        }
    }
    let snapped = summary.counts.snapped;
    if snapped > 0 && answer.connections.iter().any(|one| !one.gaps.is_empty()) {
        said.push(warning("snapped", count(snapped, "packet") + " were not captured whole: tcpdump -s 0"));
    }
    said
}

/// Times that go back: within a file, or from one file to the next.
fn clocks(files: &Files, summary: &Summary) -> Vec<Warning> {
    let mut said: Vec<Warning> = Vec::new();
    let back = match &summary.back {
        Some(back) => back,
        None => return said,
    };
    let left = summary.reordered.map(|reordered| reordered.left);
    for one in &back.first {
        let one = clock(files, one, back.packets, left);
        if !said.iter().any(|before| before.kind == one.kind) {
            said.push(one);
        }
    }
    said
}

fn clock(files: &Files, one: &Older, packets: u64, left: Option<u64>) -> Warning {
    let nanos = time_of(i64::try_from(one.nanos).unwrap_or(i64::MAX));
    let (file, packet) = files.place(one.arrival.packet);
    let at = Some(at_of(one.arrival));
    if file > 1 && packet == 1 {
        let (name, before) = (files.name(file), files.name(file - 1));
        let text = format!(
            "{name} begins {nanos} before {before} ends: the files overlap, or stand in the wrong order (mergecap puts \
             them in order)"
        );
        return Warning { at, ..warning("files-out-of-order", text) };
    }
    let many = match packets {
        0 | 1 => String::new(),
        _ => format!(", and in {}", count(packets - 1, "other place")),
    };
    let help = match left {
        Some(left) => format!("{} too late for --reorder: reordercap", count(left, "packet")),
        None => help_for(one.nanos).to_string(),
    };
    let text = format!(
        "times go back at packet {packet} by {nanos}{many}: what is said of order and of durations may be wrong \
         ({help})"
    );
    Warning { at, ..warning("times-go-back", text) }
}

/// Files that end within a packet, as where their writer still wrote or was ended.
fn cut(answer: &Answer) -> impl Iterator<Item = Warning> + '_ {
    answer.cuts.iter().map(|(file, packet)| {
        let name = answer.files.name(*file);
        let text = format!("{name} ends within packet {packet}: what followed is not in it");
        warning("cut", text)
    })
}

fn one_direction(answer: &Answer, summary: &Summary) -> Option<Warning> {
    let some: Vec<_> = answer.connections.iter().filter(|one| one.reason == ONE_DIRECTION).collect();
    let unopened: Vec<_> = summary.unopened.iter().filter(|pair| pair.is_one_way).collect();
    let connections = match some.len() + unopened.len() {
        0 => return None,
        number => count(number as u64, "connection"),
    };
    let text =
        format!("one direction alone was captured of {connections}: capture on one of the two hosts, or on both paths");
    let at = some.first().map(|one| one.opened).or_else(|| unopened.first().map(|pair| at_of(pair.first)));
    Some(Warning { connection: some.first().map(|one| one.number), at, ..warning("one-direction", text) })
}

/// The verb behind a count.
fn were(number: u64) -> &'static str {
    match number {
        1 => "was",
        _ => "were",
    }
}

/// Packets that were dropped while they were captured, as the files say; and those whose receiver had them.
fn dropped(answer: &Answer, summary: &Summary) -> Vec<Warning> {
    let mut said = Vec::new();
    if summary.dropped > 0 {
        let (packets, were) = (count(summary.dropped, "packet"), were(summary.dropped));
        let text = format!("{packets} {were} dropped while this was captured, as the capture says (tcpdump -B)");
        said.push(warning("dropped", text));
    }
    let some: Vec<_> = answer.connections.iter().filter(|one| !one.uncaptured.is_empty()).collect();
    let of_sides = || some.iter().flat_map(|one| &one.uncaptured).map(|one| &one.1);
    let sum = |number: fn(&Uncaptured) -> u64| of_sides().map(number).sum::<u64>();
    if let Some(first) = some.first() {
        let (bytes, connections) = (sum(|one| one.bytes), count(some.len() as u64, "connection"));
        let packets = count(sum(|one| one.packets), "packet");
        let text = format!(
            "{} of {connections} {} acknowledged and never captured: {packets} or more were dropped while they were \
             captured (tcpdump -B)",
            count(bytes, "byte"),
            were(bytes)
        );
        said.push(Warning { connection: Some(first.number), at: Some(first.opened), ..warning("dropped", text) });
    }
    said
}

/// Connections of which most segments came twice, as where a bridge and its port are both captured.
pub fn doubled(courses: &Courses) -> Option<Warning> {
    let is_one = |course: &import::TcpCourse| {
        let [client, server] = &course.sides;
        4 * (u128::from(client.doubled) + u128::from(server.doubled))
            > u128::from(client.segments) + u128::from(server.segments)
    };
    let courses = (1..).zip(courses.connections.iter().map(Option::as_deref));
    let mut found = courses.filter(|one| one.1.map_or(false, is_one)).map(|one| one.0);
    let first = found.next()?;
    let connections = count(1 + found.count() as u64, "connection");
    let text = format!("each packet of {connections} was captured twice: name one interface");
    Some(Warning { connection: Some(first), ..warning("doubled", text) })
}

/// What cannot be seen from where the connection was captured.
pub fn limits_of(round_trip: &RoundTrip, captured_at: Option<Place>, uses_window: [bool; 2]) -> Vec<String> {
    let here = match captured_at {
        Some(Place::AtClient) => 0,
        Some(Place::AtServer) => 1,
        _ => return Vec::new(),
    };
    let nanos = round_trip.nanos().unwrap_or(0);
    let there = 1 - here;
    if nanos < NEAR || !uses_window[there] {
        return Vec::new();
    }
    vec![format!(
        "captured at the {}: a stall of the {} may not show, since what it uses up within the round trip of {} is \
         granted again here before the credit seems to be 0",
        side_of(here),
        side_of(there),
        time_of(nanos)
    )]
}
