//! How the answer is worded: rates, shares, lists of streams, and what it has of the explanation's words.

use std::borrow::Cow;

use explain::answer::Nanos;
pub use explain::words::{code_name, count, put_count, put_time, time_of};
use reports::{grouped, put_grouped, put_number, Side};

pub const SIDES: [Side; 2] = [Side::Client, Side::Server];
const GRPC: [&str; 17] = [
    "OK",
    "CANCELLED",
    "UNKNOWN",
    "INVALID_ARGUMENT",
    "DEADLINE_EXCEEDED",
    "NOT_FOUND",
    "ALREADY_EXISTS",
    "PERMISSION_DENIED",
    "RESOURCE_EXHAUSTED",
    "FAILED_PRECONDITION",
    "ABORTED",
    "OUT_OF_RANGE",
    "UNIMPLEMENTED",
    "INTERNAL",
    "UNAVAILABLE",
    "DATA_LOSS",
    "UNAUTHENTICATED",
];
/// Units of rates, and so many bytes a second of which they are told.
const RATES: [(&str, i128); 3] = [("GB", 1_000_000_000), ("MB", 1_000_000), ("kB", 1_000)];
/// So many of a list are named.
const MOST_NAMED: usize = 8;

pub fn grpc_name(code: u32) -> Cow<'static, str> {
    let known = usize::try_from(code).ok().and_then(|code| GRPC.get(code));
    known.map_or_else(|| code.to_string().into(), |name| Cow::Borrowed(*name))
}

/// So many bytes a second.
pub fn rate_of(a_second: i128) -> String {
    let mut text = String::new();
    put_rate(&mut text, a_second);
    text
}

/// Puts so many bytes a second behind a text.
pub fn put_rate(text: &mut String, a_second: i128) {
    let found = RATES.iter().find(|one| a_second >= one.1);
    let unit = found.map_or("B", |one| one.0);
    match found.map(|one| (a_second * 10 + one.1 / 2) / one.1) {
        Some(tenths @ 0..=999) => {
            put_number(text, tenths as u64 / 10);
            text.push('.');
            put_number(text, tenths as u64 % 10);
        }
        Some(tenths) => put_grouped(text, tenths / 10),
        None => text.push_str(&a_second.to_string()),
    }
    text.push(' ');
    text.push_str(unit);
    text.push_str("/s");
}

/// A share in whole percent; what is there is never said to be 0 %.
pub fn percent(part: Nanos, whole: Nanos) -> String {
    let mut text = String::new();
    put_percent(&mut text, part, whole);
    text
}

/// Puts a part of a whole in percent behind a text.
pub fn put_percent(text: &mut String, part: Nanos, whole: Nanos) {
    let (part, whole) = (i128::from(part), i128::from(whole));
    match whole {
        _ if whole <= 0 && part != 0 => text.push_str("100 %"),
        _ if whole <= 0 => text.push_str("0 %"),
        _ if part != 0 && part * 1000 / whole < 10 => text.push_str("less than 1 %"),
        _ => {
            let percent = (part * 100 + whole / 2) / whole;
            match percent.try_into() {
                Ok(percent) => put_number(text, percent),
                Err(_) => text.push_str(&percent.to_string()),
            }
            text.push_str(" %");
        }
    }
}

/// The streams by their numbers: "stream 3", "streams 1, 3, 5", or so many from one to another.
pub fn streams_named(streams: &[u32]) -> String {
    match streams {
        [only] => format!("stream {only}"),
        [first, .., last] if streams.len() > MOST_NAMED => {
            format!("{} streams, {first} to {last}", grouped(streams.len() as u64))
        }
        some => format!("streams {}", some.iter().map(u32::to_string).collect::<Vec<_>>().join(", ")),
    }
}

/// The first names of several, and how many more there are.
pub fn list_of(names: &[String]) -> String {
    let named = &names[..names.len().min(MOST_NAMED)];
    match names.len() - named.len() {
        0 => named.join(", "),
        more => format!("{} and {} more", named.join(", "), grouped(more as u64)),
    }
}

/// What a terminal would act on, or what is no text, as an escape.
pub fn escaped(text: &str) -> Cow<'_, str> {
    if text.bytes().all(|byte| matches!(byte, b' '..=b'~')) {
        Cow::Borrowed(text)
    } else {
        Cow::Owned(programs::printable(text))
    }
}

/// How many letters a text has, which is its width where each takes one place.
pub fn letters(text: &str) -> usize {
    text.chars().count()
}

#[cfg(test)]
mod tests {
    use super::{escaped, grpc_name, list_of, percent, rate_of, streams_named};

    #[test]
    fn rates() {
        let cases = [
            (648_001, "648 kB/s"),
            (100_000, "100 kB/s"),
            (99_949, "99.9 kB/s"),
            (99_950, "100 kB/s"),
            (999, "999 B/s"),
            (5_000_000_000_000, "5,000 GB/s"),
            (7_000_000_000, "7.0 GB/s"),
        ];
        for (a_second, said) in cases {
            assert_eq!(rate_of(a_second), said);
        }
    }

    #[test]
    fn shares() {
        let cases =
            [(0, 0, "0 %"), (1, 0, "100 %"), (1, 101, "less than 1 %"), (1, 100, "1 %"), (2, 3, "67 %"), (0, 5, "0 %")];
        for (part, whole, said) in cases {
            assert_eq!(percent(part, whole), said);
        }
    }

    #[test]
    fn names_and_lists() {
        assert_eq!((grpc_name(4).as_ref(), grpc_name(17).as_ref()), ("DEADLINE_EXCEEDED", "17"));
        assert_eq!(streams_named(&[7]), "stream 7");
        assert_eq!(streams_named(&[1, 3]), "streams 1, 3");
        assert_eq!(streams_named(&(0..9).collect::<Vec<_>>()), "9 streams, 0 to 8");
        let names: Vec<String> = (0..10).map(|number| number.to_string()).collect();
        assert_eq!(list_of(&names), "0, 1, 2, 3, 4, 5, 6, 7 and 2 more");
        assert_eq!(list_of(&names[..2]), "0, 1");
        assert_eq!(escaped("GET /é\u{1b}").as_ref(), "GET /é\\x1b");
    }
}
