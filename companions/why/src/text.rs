//! The answer as text: a warning first, then the connections with the most trouble, and in each the worst request.

use std::cmp::Reverse;
use std::collections::{HashMap, HashSet};
use std::fmt::Write as _;
use std::io::{self, Write};

use explain::answer::{is_pushed, CauseKind, Room, RoundTrip};
use explain::answer::{Answer, At, ConnectionSaid, How, Place, Request, Signal, Source, StallSaid};
use reports::{grouped, Side};

use crate::document::signal_word;
use crate::faults::{told, ToldFault};
use crate::joined;
use crate::legs_said::{self, hop_words};
use crate::life::life_of;
use crate::page::{Colour, Look, Page};
use crate::phrases::how_name;
use crate::summing::{is_held, rank, Rank, SummedConnection, Verdict, Whole, MOST_REQUESTS};
use crate::wording::{code_name, count, escaped, grpc_name, letters, time_of};

/// So many are shown where not all are asked for.
const MOST_CONNECTIONS: usize = 12;
const MOST_FAULTS: usize = 8;
const MOST_SIGNALS: usize = 4;
/// Names have at most so many columns.
const MOST_COLUMNS: usize = 48;
const NAME_UNKNOWN: &str = "(name unknown)";
const PATH_UNKNOWN: &str = " (path unknown)";
const PROVED: &str = "Faults and stalls are those of h2audit's proved report. Names, credits, lives, causes, TCP and \
                      place of capture are not: h2audit-why reads them from the frames and the packets.";

const LEGS_PROVED: &str = "Stalls on both legs of a proxy are proved. Which request carried which, whose time it was, \
                           and that one stall is the reason of another, are not.";

/// The side that waited for the connection's window, and why: told once, with the stream of which it was told.
type Waited = HashMap<(Side, String), u32>;

pub fn write(whole: &Whole<'_>, look: Look, to: &mut dyn Write) -> io::Result<()> {
    let answer = whole.answer;
    let mut page = Page::new(look, &answer.files, to);
    for warning in &answer.warnings {
        let of = warning.connection.map_or(String::new(), |number| format!("connection {number}: "));
        page.folded(&format!("warning: {of}{}", escaped(&warning.text)), "  ", Colour::Yellow)?;
    }
    let colour = match &whole.summary {
        summary if summary.faults > 0 || summary.audited == 0 => Colour::Red,
        summary if summary.tally.held > 0 || summary.verdict == Verdict::Errors => Colour::Yellow,
        _ => Colour::Bold,
    };
    page.folded(&whole.summary.text, "  ", colour)?;
    for hop in &answer.legs.hops {
        page.line("")?;
        page.folded(&hop_words(hop, answer), "  ", Colour::Bold)?;
    }
    connections(whole, &mut page)?;
    if !answer.not_audited.is_empty() {
        let said: Vec<&str> = answer.not_audited.iter().map(|one| one.text.as_str()).collect();
        page.line("")?;
        page.folded(&format!("Not audited: {}", said.join(", ")), "  ", Colour::Yellow)?;
    }
    if whole.summary.audited > 0 {
        page.line("")?;
        page.folded(PROVED, "  ", Colour::Dim)?;
        joined::proved(answer).map_or(Ok(()), |text| page.folded(text, "  ", Colour::Dim))?;
        if !answer.legs.hops.is_empty() {
            page.folded(LEGS_PROVED, "  ", Colour::Dim)?;
        }
    }
    Ok(())
}

/// Writes connections: first those with faults, then those with hung requests, then by the time of the worst one.
fn connections(whole: &Whole<'_>, page: &mut Page<'_>) -> io::Result<()> {
    let shown = by_trouble(whole);
    let most = if page.look.has_all_requests() { shown.len() } else { shown.len().min(MOST_CONNECTIONS) };
    for one in &shown[..most] {
        page.line("")?;
        connection(one, whole.answer, page)?;
    }
    if shown.len() > most {
        page.line("")?;
        page.line(&format!("{} with less trouble: --all", count((shown.len() - most) as u64, "connection")))?;
    }
    Ok(())
}

/// What follows a connection's gaps stands below it, and counts with it.
fn by_trouble<'a, 'b>(whole: &'b Whole<'a>) -> Vec<&'b SummedConnection<'a>> {
    let root = |one: &SummedConnection<'_>| {
        let joined = one.said.joined.as_ref();
        joined.and_then(|joined| joined.behind.connection()).unwrap_or(one.said.number)
    };
    let trouble = |one: &SummedConnection<'_>| (one.said.faults.len(), one.tally.hung, one.tally.worst);
    let mut most = HashMap::new();
    for one in whole.audited() {
        let known = most.entry(root(one)).or_insert_with(|| trouble(one));
        *known = trouble(one).max(*known);
    }
    let mut shown: Vec<&SummedConnection<'_>> = whole.audited().collect();
    shown.sort_by_key(|one| (Reverse(most.get(&root(one)).copied()), root(one), one.said.number));
    shown
}

fn connection(one: &SummedConnection<'_>, answer: &Answer, page: &mut Page<'_>) -> io::Result<()> {
    let said = one.said;
    page.folded(&head(said), "  ", Colour::Bold)?;
    for line in joined::lines_of(said, page.look.is_all) {
        page.folded(&format!("  {line}"), "    ", Colour::Plain)?;
    }
    faults(said, page)?;
    requests(one, answer, page)?;
    idle_stall(said, page)?;
    for note in &said.notes {
        page.folded(&format!("  {}", escaped(note)), "    ", Colour::Plain)?;
    }
    ending(said, page)?;
    said.limits.iter().try_for_each(|limit| page.folded(&format!("  {limit}"), "    ", Colour::Dim))
}

fn head(said: &ConnectionSaid) -> String {
    let mut text = format!("connection {}  {} -> {}", joined::name_of(said), said.client, said.server);
    if let RoundTrip { to: Some([client, server]), source, .. } = said.round_trip {
        let by = if source == Some(Source::Http2) { " by HTTP/2's reactions" } else { "" };
        let _ = write!(text, "   round trip {}{by}", time_of(client + server));
    }
    match said.captured_at {
        None => text,
        Some(Place::AtClient) => text + ", captured at the client",
        Some(Place::AtServer) => text + ", captured at the server",
        Some(Place::Between) => text + ", captured between the peers",
    }
}

fn faults(said: &ConnectionSaid, page: &mut Page<'_>) -> io::Result<()> {
    let told = told(said);
    let most = if page.look.is_all { told.len() } else { told.len().min(MOST_FAULTS) };
    told[..most].iter().try_for_each(|one| fault(one, page))?;
    match told[most..].iter().map(|one| one.times).sum::<u64>() {
        0 => Ok(()),
        more => page.line(&format!("  {} more: --all", count(more, "fault"))),
    }
}

fn fault(told: &ToldFault<'_>, page: &mut Page<'_>) -> io::Result<()> {
    let one = told.fault;
    let doubtful = if one.is_doubtful() { "DOUBTFUL " } else { "" };
    let mut text = format!("  {doubtful}FAULT: {}", told.sentence(&page.packet(Some(one.at))));
    if !one.set_text.is_empty() {
        let _ = write!(text, "; its window: {}", one.set_text);
    }
    text += &if one.is_doubtful() { format!(". {}", capital(&one.doubt)) } else { ". Certain".to_string() };
    page.folded(&text, "    ", Colour::Red)
}

fn capital(text: &str) -> String {
    let mut letters = text.chars();
    letters.next().map_or(String::new(), |first| first.to_uppercase().collect::<String>() + letters.as_str())
}

/// Writes the requests of a connection: the hung ones first, then those that were held back longest.
fn requests(one: &SummedConnection<'_>, answer: &Answer, page: &mut Page<'_>) -> io::Result<()> {
    let number = one.said.requests.len();
    let mut room = Room::default();
    let mut ranks: Vec<Rank> = Vec::new();
    match page.look.has_all_requests() {
        true => one.said.requests.each_unnamed(&mut room, |place, one| ranks.push(rank(one, place))),
        false => ranks.extend(&one.worst),
    }
    ranks.sort_unstable();
    let is_shown = |rank: &&Rank| page.look.has_all_requests() || rank.1 != 0 || number <= MOST_REQUESTS;
    let shown: Vec<usize> = ranks.iter().filter(is_shown).map(|rank| rank.3).collect();
    let is_joined = one.said.joined.is_some();
    let found = || shown.iter().filter_map(|index| Some((*index, one.said.requests.get(*index)?)));
    let width = found().map(|(_, request)| letters(&name_of(&request, is_joined))).max().unwrap_or(0).min(MOST_COLUMNS);
    let (mut told, mut held) = (Waited::new(), 0);
    for (place, request) in found() {
        held += u64::from(is_held(&request));
        let colour = match () {
            () if request.is_hung => Colour::Red,
            () if is_held(&request) => Colour::Yellow,
            () => Colour::Plain,
        };
        let cause = cause(&request, &one.phrases.of(&request), &mut told);
        let (name, before) = (name_of(&request, is_joined), joined::before_what(one.said));
        page.folded(&line_of(&request, (name, width), before, &cause, page), "      ", colour)?;
        life_of(&request).map_or(Ok(()), |life| page.folded(&format!("      {life}"), "        ", Colour::Plain))?;
        for line in legs_said::lines_of(&request, (one.place, place), page.look.has_all_legs, answer) {
            page.folded(&format!("      {line}"), "        ", Colour::Plain)?;
        }
    }
    if number > shown.len() {
        let rest = count((number - shown.len()) as u64, "request");
        let held = one.tally.held - held;
        let held = if held > 0 { format!(", of which {} held back", grouped(held)) } else { String::new() };
        page.line(&format!("  {rest} more{held}: --all"))?;
    }
    Ok(())
}

/// The name of a request, as far as it is known; a push is said to be one.
pub fn name_of(request: &Request, is_joined: bool) -> String {
    let pushed = if is_pushed(request.stream) { "pushed " } else { "" };
    let has_target = request.path.is_some() || request.authority.is_some();
    let is_path_known = !is_joined || has_target || request.method.is_none();
    let unknown = if is_path_known { "" } else { PATH_UNKNOWN };
    format!("{pushed}{}{unknown}", request.name.as_deref().unwrap_or(NAME_UNKNOWN))
}

/// What held back a request; where the connection's window did, what it was is told once.
fn cause(request: &Request, text: &str, told: &mut Waited) -> String {
    if request.cause.kind != CauseKind::ConnectionWindow {
        return text.to_string();
    }
    let (lasts, why) = text.split_once(": ").unwrap_or((text, ""));
    let stream = *told.entry((request.cause.side, why.to_string())).or_insert(request.stream);
    if stream == request.stream {
        return text.to_string();
    }
    format!("{lasts}: the connection's window, as stream {stream}")
}

fn line_of(request: &Request, (name, width): (String, usize), before: &str, cause: &str, page: &Page<'_>) -> String {
    let mut status = request.status.map_or("-".to_string(), |status| status.to_string());
    if let Some(code) = request.grpc_status.filter(|code| *code > 0) {
        let _ = write!(status, " grpc {}", grpc_name(code));
    }
    let before = if request.was_open { format!(" (opened {before})") } else { String::new() };
    let stream = format!("stream {}{before}", request.stream);
    let lasts = time_of(request.nanos());
    let mut text = format!("  {name:width$}  {stream:10}  {status}  {lasts:>9}   {cause}");
    let ended = &request.ended;
    match (ended.how, ended.side) {
        (How::RstStream, Some(side)) => {
            let _ = write!(text, "; {side}'s RST_STREAM {}", code_name(ended.code.unwrap_or(0)));
        }
        (How::EndStream | How::RstStream, _) => {}
        _ if request.is_hung => {}
        _ if request.is_end_unseen => text += "; its end was not captured",
        (how, Some(side)) if how != How::Capture => {
            let code = ended.code.map_or(String::new(), |code| format!(" {}", code_name(code)));
            let _ = write!(text, "; not ended: the {side}'s {}{code}", how_name(how));
        }
        _ => text += "; not ended: the capture ends",
    }
    if request.cause.first.is_some() {
        let _ = write!(text, "   {}", page.packets(request.cause.first, request.cause.last));
    }
    text
}

/// Writes a stall without an end in which no request hung, as where every stream had ended.
fn idle_stall(said: &ConnectionSaid, page: &mut Page<'_>) -> io::Result<()> {
    if said.stalls.iter().all(|stall| stall.end.is_some()) {
        return Ok(());
    }
    let mut room = Room::default();
    let mut named: HashSet<(Side, u32)> = HashSet::new();
    said.requests.each_unnamed(&mut room, |_, request| {
        let stream = match request.cause.kind {
            CauseKind::StreamWindow => request.stream,
            CauseKind::ConnectionWindow => 0,
            _ => return,
        };
        named.insert((request.cause.side, stream));
    });
    match said.stalls.iter().find(|one| one.end.is_none() && !named.contains(&(one.side, one.stream))) {
        Some(stall) => page.folded(&format!("  {}", open_stall(stall, page)), "    ", Colour::Plain),
        None => Ok(()),
    }
}

fn open_stall(stall: &StallSaid, page: &Page<'_>) -> String {
    let window = match stall.stream {
        0 => "of the connection".to_string(),
        stream => format!("on stream {stream}"),
    };
    let (packet, lasts) = (page.packet(Some(stall.begin)), time_of(stall.nanos));
    format!(
        "the {}'s credit {window} was used up in {packet}, and no grant was seen in the {lasts} that followed",
        stall.side
    )
}

/// What the peers said, how the connection ended, and where the audit stopped.
fn ending(said: &ConnectionSaid, page: &mut Page<'_>) -> io::Result<()> {
    let most = if page.look.is_all { usize::MAX } else { MOST_SIGNALS };
    let has_more = |one: &&Signal| one.code != 0 || one.debug.as_deref().map_or(false, |debug| !debug.is_empty());
    for one in said.signals.iter().filter(has_more).take(most) {
        let text = signal(one, page);
        page.folded(&format!("  {text}"), "    ", Colour::Yellow)?;
    }
    match (said.ended.how, said.ended.side) {
        (how @ (How::Fin | How::Rst), Some(side)) => {
            let has_goaway = said.signals.iter().any(|one| one.is_goaway && one.side == side);
            let without = if has_goaway { "" } else { ", no GOAWAY" };
            let packet = page.packet(said.ended.at);
            let text = format!("  ended by the {side}: {}, {packet}{without}", how_name(how));
            page.folded(&text, "    ", Colour::Plain)?;
        }
        (How::Capture, _) => {
            let packet = page.packet(said.ended.at);
            page.folded(&format!("  the capture ends with it open, {packet}"), "    ", Colour::Plain)?;
        }
        _ => {}
    }
    said.stopped_at.map_or(Ok(()), |at| stopped(at, page))
}

fn stopped(at: At, page: &mut Page<'_>) -> io::Result<()> {
    let packet = page.packet(Some(at));
    let text = format!("  the audit stopped at frame {}, {packet}: nothing is judged past it", at.frame);
    page.folded(&text, "    ", Colour::Plain)
}

fn signal(one: &Signal, page: &Page<'_>) -> String {
    let who = if one.is_goaway { format!("ended by the {}: ", one.side) } else { format!("the {} sent ", one.side) };
    let (word, code, packet) = (signal_word(one), code_name(one.code), page.packet(Some(one.at)));
    let mut text = format!("{who}{word} {code}, {packet}");
    text += &match one.is_goaway {
        true => format!(", last stream {}", one.last.unwrap_or(0)),
        false => format!(", on stream {}", one.stream),
    };
    match one.debug.as_deref() {
        Some(debug) if !debug.is_empty() => format!("{text}, \"{}\"", escaped(debug)),
        _ => text,
    }
}
