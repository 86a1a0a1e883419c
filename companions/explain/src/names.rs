//! Names of requests: texts of which a capture has many, each held once.

use std::borrow::Cow;
use std::collections::HashMap;
use std::fmt::Write;
use std::hash::{BuildHasher, Hash, Hasher};
use std::rc::Rc;

/// So many letters of a name are kept: a few bytes may stand for a name of thousands, over and over again.
pub const LONGEST_NAME: usize = 1024;

/// Texts by their numbers, which count from 1; 0 is none.
#[derive(Debug, Default)]
pub struct Texts {
    all: Vec<Rc<str>>,
}

/// Gives the same number for the same text.
#[derive(Debug, Default)]
pub struct Interner {
    numbers: HashMap<Rc<str>, u32>,
    texts: Texts,
    /// The last one of each sort, which mostly comes again.
    latest: [u32; SORTS],
}

/// Sorts of texts, as methods and paths.
const SORTS: usize = 3;

impl Interner {
    /// The number of a text of some sort.
    pub fn number_of(&mut self, sort: usize, text: &str) -> u32 {
        if self.texts.get(self.latest[sort]).map_or(true, |one| &**one != text) {
            self.latest[sort] = self.number(text);
        }
        self.latest[sort]
    }

    fn number(&mut self, text: &str) -> u32 {
        if let Some(number) = self.numbers.get(text) {
            return *number;
        }
        let text: Rc<str> = text.into();
        self.texts.all.push(text.clone());
        let number = u32::try_from(self.texts.all.len()).unwrap_or(0);
        self.numbers.insert(text, number);
        number
    }

    /// Hashes bytes that are never told: equal bytes have the same hash, which is not 0.
    pub fn hash(&self, octets: &[u8]) -> u64 {
        let mut hasher = self.numbers.hasher().build_hasher();
        octets.hash(&mut hasher);
        hasher.finish() | 1
    }

    pub fn into_texts(self) -> Texts {
        self.texts
    }
}

impl Texts {
    pub fn get(&self, number: u32) -> Option<&Rc<str>> {
        self.all.get((number as usize).checked_sub(1)?)
    }
}

/// Bytes as text; what is none is written as `\xNN`.
pub fn text_of(octets: &[u8]) -> Cow<'_, str> {
    match std::str::from_utf8(octets) {
        Ok(text) => Cow::Borrowed(text),
        Err(_) => Cow::Owned(replaced(octets)),
    }
}

fn replaced(octets: &[u8]) -> String {
    let (mut rest, mut text) = (octets, String::new());
    while !rest.is_empty() {
        let whole = match std::str::from_utf8(rest) {
            Ok(_) => rest.len(),
            Err(error) => error.valid_up_to(),
        };
        let (front, behind) = rest.split_at(whole);
        text.push_str(std::str::from_utf8(front).unwrap_or_default());
        rest = behind;
        if let Some((octet, behind)) = behind.split_first() {
            let _ = write!(text, "\\x{octet:02x}");
            rest = behind;
        }
    }
    text
}

/// The first letters of a text.
pub fn shortened(text: &str) -> &str {
    if text.len() <= LONGEST_NAME {
        return text;
    }
    match text.char_indices().nth(LONGEST_NAME) {
        Some((end, _)) => &text[..end],
        None => text,
    }
}

/// What a terminal would act on, or what is no text, as an escape.
pub fn escaped(text: &str) -> Cow<'_, str> {
    match text.bytes().fold(true, |are, byte| are & matches!(byte, b' '..=b'~')) {
        true => Cow::Borrowed(text),
        false => Cow::Owned(programs::printable(text)),
    }
}

/// What a request is called: its method, and its path, or without one its authority.
pub fn name_of<'a>(method: Option<&'a str>, target: Option<&'a str>) -> Option<Rc<str>> {
    let some = |word: Option<&'a str>| word.filter(|word| !word.is_empty());
    let text = match (some(method), some(target)) {
        (Some(method), Some(target)) => {
            let mut text = String::with_capacity(method.len() + 1 + target.len());
            text.push_str(method);
            text.push(' ');
            text.push_str(target);
            Cow::Owned(text)
        }
        (one, other) => Cow::Borrowed(one.or(other)?),
    };
    Some(shortened(&escaped(&text)).into())
}

#[cfg(test)]
mod tests {
    use super::*;

    #[test]
    fn texts_are_held_once() {
        let mut interner = Interner::default();
        let texts = [(0, "GET"), (1, "/"), (0, "GET"), (2, ""), (1, "GET"), (1, "/")];
        let numbers: Vec<u32> = texts.into_iter().map(|(sort, text)| interner.number_of(sort, text)).collect();
        assert_eq!(numbers, [1, 2, 1, 3, 1, 2]);
        let texts = interner.into_texts();
        assert_eq!((texts.get(2).map(|text| &**text), texts.get(0), texts.get(4)), (Some("/"), None, None));
    }

    #[test]
    fn what_is_no_text() {
        assert_eq!(text_of(b"/a\xff\xe2\x82b\xc3\xa4"), "/a\\xff\\xe2\\x82bä");
        assert_eq!(text_of(b"\xed\xa0\x80"), "\\xed\\xa0\\x80");
    }

    #[test]
    fn names() {
        assert_eq!(name_of(Some("GET"), Some("/a\n")).as_deref(), Some("GET /a\\n"));
        assert_eq!((name_of(None, None), name_of(Some(""), None)), (None, None));
        assert_eq!(name_of(None, Some("example")).as_deref(), Some("example"));
        let long = "ä".repeat(2000);
        assert_eq!(shortened(&long).chars().count(), LONGEST_NAME);
        assert_eq!(name_of(Some("GET"), Some(&long)).map(|name| name.chars().count()), Some(LONGEST_NAME));
    }
}
