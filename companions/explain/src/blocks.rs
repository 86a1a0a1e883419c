//! Field blocks of one side, put together and decoded, and what of them is told.

use hpack::{Decoder, Fields, Name, LONGEST_BLOCK};

use crate::answer::At;
use crate::names::{shortened, text_of, Interner};
use crate::stream::{Answered, RequestFields};

/// What is wanted of names.
#[derive(Clone, Copy, Debug)]
pub struct Names {
    /// Whether any are.
    pub are_wanted: bool,
    /// Whether paths have their query.
    pub has_query: bool,
}

/// A block that goes on.
#[derive(Debug)]
struct Block {
    stream: u32,
    at: At,
    is_promise: bool,
    octets: Vec<u8>,
}

/// The blocks of one side.
pub struct Blocks {
    are_wanted: bool,
    open: Option<Box<Block>>,
    decoder: Option<Box<Decoder>>,
    /// The frame from which on nothing is known, and why.
    damage: Option<(At, String)>,
}

/// A block that was decoded.
pub struct Decoded {
    pub stream: u32,
    pub is_promise: bool,
    pub fields: Fields,
}

impl Blocks {
    pub fn new(are_wanted: bool) -> Blocks {
        Blocks { are_wanted, open: None, decoder: None, damage: None }
    }

    /// The other side's settings allow a table of this size.
    pub fn allow_table(&mut self, size: u32) {
        self.decoder.get_or_insert_with(Default::default).allow_table(size);
    }

    /// HEADERS or PUSH_PROMISE came, for a stream; the block may be whole.
    pub fn begin(
        &mut self,
        at: At,
        (stream, is_promise): (u32, bool),
        octets: &[u8],
        is_whole: bool,
    ) -> Option<Decoded> {
        if is_whole {
            return self.decode(at, stream, is_promise, octets);
        }
        let octets = if self.are_wanted { octets.to_vec() } else { Vec::new() };
        self.open = Some(Box::new(Block { stream, at, is_promise, octets }));
        None
    }

    /// Whether the block that goes on is a promise's; none where none goes on.
    pub fn is_promise(&self) -> Option<bool> {
        self.open.as_ref().map(|block| block.is_promise)
    }

    /// CONTINUATION came.
    pub fn go_on(&mut self, octets: &[u8], is_whole: bool) -> Option<Decoded> {
        let block = self.open.as_mut()?;
        if self.are_wanted && block.octets.len() <= LONGEST_BLOCK {
            block.octets.extend_from_slice(octets);
        }
        if !is_whole {
            return None;
        }
        let block = self.open.take()?;
        self.decode(block.at, block.stream, block.is_promise, &block.octets)
    }

    fn decode(&mut self, at: At, stream: u32, is_promise: bool, octets: &[u8]) -> Option<Decoded> {
        if self.damage.is_some() || !self.are_wanted {
            return None;
        }
        match self.decoder.get_or_insert_with(Default::default).decode(octets) {
            Ok(fields) => Some(Decoded { stream, is_promise, fields }),
            Err(damage) => {
                self.damage = Some((at, damage.to_string()));
                self.decoder = None;
                None
            }
        }
    }

    /// From where on its names are unknown.
    pub fn unknown(&self, whose: &str) -> Option<String> {
        let (at, why) = self.damage.as_ref()?;
        Some(format!("names and statuses of {whose} from packet {} on are unknown: {why}", at.packet))
    }
}

/// What a block says of a request.
pub fn asked_of(fields: &Fields, names: Names, interner: &mut Interner) -> RequestFields {
    let mut number = |sort: usize, name: Name| match fields.value(name) {
        None => 0,
        Some(octets) => {
            let text = text_of(octets);
            let query = if name == Name::Path && !names.has_query { text.find('?') } else { None };
            interner.number_of(sort, shortened(&text[..query.unwrap_or(text.len())]))
        }
    };
    RequestFields {
        is_empty: Name::ALL.iter().all(|name| Name::IDS.contains(name) || fields.value(*name).is_none()),
        method: number(0, Name::Method),
        path: number(1, Name::Path),
        authority: number(2, Name::Authority),
        ids: Name::IDS
            .map(|name| fields.value(name).and_then(|value| id_of(name, value)).map_or(0, |id| interner.hash(id))),
    }
}

/// What of a value goes from hop to hop: of a traceparent the part that names the trace (W3C Trace Context, 3.2.2).
fn id_of(name: Name, value: &[u8]) -> Option<&[u8]> {
    match name {
        Name::TraceParent => value.get(3..35),
        _ => Some(value).filter(|value| !value.is_empty()),
    }
}

/// What a block of the server says.
pub fn answered_of(fields: &Fields) -> Answered {
    let status = fields.value(Name::Status);
    Answered {
        is_informational: status.map_or(false, |status| status.first() == Some(&b'1')),
        status: number_of(status),
        grpc_status: number_of(fields.value(Name::GrpcStatus)),
    }
}

fn number_of(octets: Option<&[u8]>) -> Option<u32> {
    let digits = octets.filter(|octets| octets.len() < 10 && octets.iter().all(u8::is_ascii_digit))?;
    std::str::from_utf8(digits).ok()?.parse().ok()
}

#[cfg(test)]
mod tests {
    use super::*;

    const AT: At = At { packet: 9, time: 0, frame: 1 };

    #[test]
    fn blocks_go_on() {
        let mut blocks = Blocks::new(true);
        assert!(blocks.begin(AT, (1, false), b"\x82", false).is_none());
        assert_eq!(blocks.is_promise(), Some(false));
        let found = blocks.go_on(b"\x84\x44\x04/a?b", true).expect("fields");
        let mut interner = Interner::default();
        let names = Names { are_wanted: true, has_query: false };
        let asked = asked_of(&found.fields, names, &mut interner);
        let texts = interner.into_texts();
        let text = |number| texts.get(number).map(|text| &**text);
        assert_eq!((text(asked.method), text(asked.path), asked.authority), (Some("GET"), Some("/"), 0));
        assert!(blocks.go_on(b"\x84", true).is_none(), "none goes on");
    }

    #[test]
    fn nothing_is_known_behind_damage() {
        let mut blocks = Blocks::new(true);
        assert!(blocks.begin(AT, (1, false), b"\xff", true).is_none());
        assert!(blocks.begin(AT, (3, false), b"\x82", true).is_none());
        let said = blocks.unknown("answers").expect("damage");
        assert!(said.starts_with("names and statuses of answers from packet 9 on are unknown: a damaged"), "{said}");
    }

    #[test]
    fn ids_are_those_of_the_trace() {
        let mut decoder = hpack::Decoder::new();
        let mut fields = |trace: &[u8]| decoder.decode(&[b"\x00\x0btraceparent\x37", trace].concat()).expect("fields");
        let [one, other] = [b"a3ce929d0e0e4736-01", b"00f067aa0ba902b7-01"]
            .map(|behind| [&b"00-4bf92f3577b34da6a3ce929d0e0e4736-"[..], behind].concat());
        let mut interner = Interner::default();
        let names = Names { are_wanted: true, has_query: false };
        let [one, other] = [&one, &other].map(|trace| asked_of(&fields(trace), names, &mut interner));
        assert_eq!(one, other);
        assert!(one.ids[1] != 0 && one.ids[0] == 0 && one.is_empty);
        assert_eq!((id_of(Name::TraceParent, b"00-4b"), id_of(Name::RequestId, b"")), (None, None));
    }

    #[test]
    fn numbers() {
        let number = |octets: &[u8]| number_of(Some(octets));
        assert_eq!((number(b"200"), number(b""), number(b"+1"), number(b"1234567890")), (Some(200), None, None, None));
    }
}
