//! What two captures of the same work show side by side, as text and for machines.

use std::cmp::{Ordering, Reverse};
use std::fmt::Write as _;
use std::io::{self, Write};

use reports::grouped;

use crate::compare::{Compared, One, Pair};
use crate::document;
use crate::json::Json;
use crate::page::{Colour, Page};
use crate::summing::Whole;
use crate::wording::{count, escaped, letters, percent, time_of};

const VERSION: u32 = 1;
const MOST_SHOWN: usize = 20;
const MOST_COLUMNS: usize = 48;

pub fn write(both: &Compared<'_>, page: &mut Page<'_>) -> io::Result<()> {
    let captures = [("before", both.before), ("after", both.after)];
    for (word, whole) in captures {
        for warning in &whole.answer.warnings {
            page.folded(&format!("warning: {word}: {}", escaped(&warning.text)), "  ", Colour::Yellow)?;
        }
    }
    for (word, whole) in captures {
        let text = format!("{:7} {}: {}", format!("{word}:"), files_of(whole), whole.summary.text);
        page.folded(&text, "  ", Colour::Plain)?;
    }
    page.folded(&sentence_of(both), "  ", Colour::Bold)?;
    page.line("")?;
    pairs(both, page)?;
    for broken in &both.faults {
        let (before, after) = (grouped(broken.before), grouped(broken.after));
        let text = format!("  FAULT {} by the {}: {before} -> {after}", broken.kind, broken.broke);
        page.folded(&text, "    ", if broken.after > 0 { Colour::Red } else { Colour::Plain })?;
    }
    Ok(())
}

/// The names of the files of a capture.
pub fn files_of(whole: &Whole<'_>) -> String {
    let names: Vec<_> = whole.answer.files.names.iter().map(|name| escaped(name)).collect();
    names.join(", ")
}

/// Writes the requests of both captures: first those that were stalled longest, or live longer by as much.
fn pairs(both: &Compared<'_>, page: &mut Page<'_>) -> io::Result<()> {
    let mut ordered: Vec<&Pair<'_>> = both.pairs.iter().collect();
    ordered.sort_by_key(|pair| Reverse(pair.trouble().max(pair.growth())));
    let most = if page.look.is_all { ordered.len() } else { ordered.len().min(MOST_SHOWN) };
    let shown = &ordered[..most];
    let width = shown.iter().map(|pair| letters(&name_of(pair))).max().unwrap_or(0).min(MOST_COLUMNS);
    for pair in shown {
        let is_worse = [pair.change(), pair.life_change()].contains(&Ordering::Greater);
        let colour = if is_worse { Colour::Red } else { Colour::Plain };
        page.folded(&format!("  {:width$}  {}", name_of(pair), words_of(pair)), "      ", colour)?;
    }
    match ordered.len() - most {
        0 => Ok(()),
        more => page.line(&format!("  {} more: --all", count(more as u64, "request"))),
    }
}

fn sentence_of(both: &Compared<'_>) -> String {
    let number = |holds: fn(&Pair<'_>) -> bool| both.pairs.iter().filter(|pair| holds(pair)).count() as u64;
    let (new, gone) = (number(|pair| pair.before.is_none()), number(|pair| pair.after.is_none()));
    let in_both = count(both.in_both().count() as u64, "request");
    let mut said = vec![format!("{in_both} in both, {} new, {} gone.", grouped(new), grouped(gone))];
    if both.unnamed != [0, 0] {
        let [before, after] = both.unnamed.map(|number| grouped(number as u64));
        said.push(format!("Without a name, so not matched: {before} before, {after} after."));
    }
    let longer = number(|pair| pair.life_change() == Ordering::Greater);
    let shorter = number(|pair| pair.life_change() == Ordering::Less);
    let lives = format!("{} lived longer, {} shorter.", grouped(longer), grouped(shorter));
    let [before, after] = both.stalled();
    if before == 0 && after == 0 {
        said.push(format!("None of those in both was stalled. {lives}"));
        return said.join(" ");
    }
    let how = match after.cmp(&before) {
        Ordering::Less => format!(": {} less", percent(before - after, before)),
        Ordering::Greater => format!(": {} more", time_of(after - before)),
        Ordering::Equal => String::new(),
    };
    said.push(format!("Those in both were stalled for {} -> {}{how}.", time_of(before), time_of(after)));
    let less = number(|pair| pair.change() == Ordering::Less);
    let more = number(|pair| pair.change() == Ordering::Greater);
    said.push(format!("{} stalled less, {} more; {lives}", grouped(less), grouped(more)));
    said.join(" ")
}

fn name_of(pair: &Pair<'_>) -> String {
    let name = escaped(&pair.name);
    match pair.of {
        1 => name.into_owned(),
        of => format!("{name} ({} of {of})", pair.turn),
    }
}

fn words_of(pair: &Pair<'_>) -> String {
    let (before, after) = match (&pair.before, &pair.after) {
        (Some(before), Some(after)) => (before, after),
        (None, Some(one)) => return format!("new: stalled {}, life {}", share(one), time_of(one.nanos)),
        (Some(one), None) => return format!("gone: stalled {}, life {}", share(one), time_of(one.nanos)),
        (None, None) => return String::new(),
    };
    let mut said = format!("stalled {} -> {}", share(before), share(after));
    let _ = write!(said, ", life {} -> {}", time_of(before.nanos), time_of(after.nanos));
    if before.tcp != 0 || after.tcp != 0 {
        let _ = write!(said, ", TCP {} -> {}", percent(before.tcp, before.nanos), percent(after.tcp, after.nanos));
    }
    if before.is_hung || after.is_hung {
        let end_of = |one: &One<'_>| if one.is_hung { "hung" } else { "ended" };
        let _ = write!(said, ", {} -> {}", end_of(before), end_of(after));
    }
    if before.status != after.status {
        let status = |one: &One<'_>| one.status.filter(|status| *status > 0).map_or("-".into(), |one| one.to_string());
        let _ = write!(said, ", status {} -> {}", status(before), status(after));
    }
    match after.request().filter(|_| after.is_held) {
        Some(request) => format!("{said}; after: {}", after.connection.phrases.of(&request)),
        None => said,
    }
}

fn share(one: &One<'_>) -> String {
    percent(one.stalled, one.nanos)
}

pub fn write_document(both: &Compared<'_>, to: &mut dyn Write) -> io::Result<()> {
    let [before, after] = both.stalled();
    let mut json = Json::new(to);
    json.open(b'{');
    json.name("h2audit_why_compare").number(VERSION);
    capture(json.name("before"), both.before);
    capture(json.name("after"), both.after);
    json.name("stalled_nanos").object(|json| {
        json.name("before").number(before);
        json.name("after").number(after);
    });
    json.name("unnamed").object(|json| {
        json.name("before").number(both.unnamed[0]);
        json.name("after").number(both.unnamed[1]);
    });
    json.name("requests").open(b'[');
    for one in &both.pairs {
        pair(&mut json, one, both);
        json.give()?;
    }
    json.close(b']');
    json.name("faults").list(&both.faults, |json, broken| {
        json.object(|json| {
            json.name("broke").word(broken.broke);
            json.name("kind").text(&broken.kind);
            json.name("before").number(broken.before);
            json.name("after").number(broken.after);
        });
    });
    json.close(b'}');
    json.line();
    json.finish()
}

fn capture(json: &mut Json<'_>, whole: &Whole<'_>) {
    json.object(|json| {
        document::files(json.name("files"), whole.answer);
        document::summary(json.name("summary"), whole.answer, &whole.summary);
        json.name("warnings").list(&whole.answer.warnings, |json, one| json.text(&one.text));
    });
}

fn pair(json: &mut Json<'_>, one: &Pair<'_>, of: &Compared<'_>) {
    json.object(|json| {
        json.name("name").text(&escaped(&one.name));
        json.name("method").some(one.method.as_deref(), Json::text);
        json.name("path").some(one.path.as_deref(), Json::text);
        json.name("turn").number(one.turn);
        json.name("of").number(one.of);
        let both = one.both();
        json.name("change").some_word(both.map(|_| word_of(one.change(), ["less", "same", "more"])));
        json.name("life_change").some_word(both.map(|_| word_of(one.life_change(), ["shorter", "same", "longer"])));
        half(json.name("before"), one.before.as_ref(), of.before);
        half(json.name("after"), one.after.as_ref(), of.after);
    });
}

fn word_of(change: Ordering, [less, same, more]: [&'static str; 3]) -> &'static str {
    match change {
        Ordering::Less => less,
        Ordering::Equal => same,
        Ordering::Greater => more,
    }
}

/// Writes a request of one of both captures.
fn half(json: &mut Json<'_>, one: Option<&One<'_>>, of: &Whole<'_>) {
    let files = &of.answer.files;
    json.some(one.and_then(|one| one.request().map(|request| (one, request))), |json, (one, request)| {
        json.object(|json| {
            json.name("connection").number(one.connection.said.number);
            json.name("stream").number(request.stream);
            document::place(json.name("opened"), Some(request.opened), files);
            json.name("nanos").number(one.nanos);
            json.name("stalled_nanos").number(one.stalled);
            json.name("tcp_nanos").number(one.tcp);
            json.name("hung").truth(one.is_hung);
            json.name("status").some_number(one.status);
            json.name("grpc_status").some_number(request.grpc_status);
            document::cause(json.name("cause"), &request, &one.connection.phrases, files);
        });
    });
}
