//! Writes JSON on one line of ASCII, into a buffer that goes to its output as it fills.

use std::io::{self, Write};
use std::ops::Range;

use crate::digits::put_number_and_comma;

/// A buffer of so many bytes goes to its output, which need not copy so many into its own buffer.
const FULL: usize = 1 << 17;
/// Each byte of a word has this bit, or is 1.
const HIGHEST: u64 = 0x8080_8080_8080_8080;
const ONES: u64 = 0x0101_0101_0101_0101;

/// So many values are kept that may come again.
const MOST_KEPT: usize = 4;

/// JSON that is being written. Behind each value stands a comma, until what it is in ends.
pub struct Json<'a> {
    buffer: Vec<u8>,
    to: &'a mut dyn Write,
    /// The last values that may come again, by what tells them from others, and where they stand in the buffer without
    /// their commas; and which of them goes next.
    keys: [Key; MOST_KEPT],
    kept: [Range<usize>; MOST_KEPT],
    oldest: usize,
    /// Room for texts that are made as they are written.
    room: String,
}

/// What tells a value that may come again from others; and what none has.
pub type Key = [u64; 4];
const NO_KEY: Key = [u64::MAX; 4];

impl<'a> Json<'a> {
    pub fn new(to: &'a mut dyn Write) -> Json<'a> {
        Json {
            buffer: Vec::with_capacity(FULL + FULL / 2),
            to,
            keys: [NO_KEY; MOST_KEPT],
            kept: Default::default(),
            oldest: 0,
            room: String::new(),
        }
    }

    /// Gives on what was written, where that is much.
    pub fn give(&mut self) -> io::Result<()> {
        if self.buffer.len() >= FULL {
            let has_comma = self.takes_comma();
            self.finish()?;
            self.buffer.extend(has_comma.then_some(b','));
        }
        Ok(())
    }

    /// Gives on all that was written.
    pub fn finish(&mut self) -> io::Result<()> {
        self.takes_comma();
        self.to.write_all(&self.buffer)?;
        self.buffer.clear();
        self.keys = [NO_KEY; MOST_KEPT];
        Ok(())
    }

    /// Takes the comma behind the last value away, if there is one.
    fn takes_comma(&mut self) -> bool {
        let has_comma = self.buffer.last() == Some(&b',');
        self.buffer.truncate(self.buffer.len() - usize::from(has_comma));
        has_comma
    }

    /// Writes a value that often is that of one just before, which then is copied.
    #[inline]
    pub fn often(&mut self, key: Key, write: impl FnOnce(&mut Json<'a>)) {
        match self.keys.iter().position(|one| *one == key) {
            Some(found) => {
                self.buffer.extend_from_within(self.kept[found].clone());
                self.buffer.push(b',');
            }
            None => {
                let begin = self.buffer.len();
                write(self);
                self.keys[self.oldest] = key;
                self.kept[self.oldest] = begin..self.buffer.len() - 1;
                self.oldest = (self.oldest + 1) % MOST_KEPT;
            }
        }
    }

    /// Ends a line, so that another document begins.
    pub fn line(&mut self) {
        self.takes_comma();
        self.buffer.push(b'\n');
    }

    pub fn object(&mut self, members: impl FnOnce(&mut Json<'a>)) {
        self.open(b'{');
        members(self);
        self.close(b'}');
    }

    pub fn list<T>(&mut self, values: impl IntoIterator<Item = T>, each: impl Fn(&mut Json<'a>, T)) {
        self.open(b'[');
        values.into_iter().for_each(|value| each(self, value));
        self.close(b']');
    }

    #[inline]
    pub fn open(&mut self, begin: u8) {
        self.buffer.push(begin);
    }

    #[inline]
    pub fn close(&mut self, end: u8) {
        match self.buffer.last_mut() {
            Some(comma @ b',') => *comma = end,
            _ => self.buffer.push(end),
        }
        self.buffer.push(b',');
    }

    /// The name of a member, which needs no escapes.
    #[inline]
    pub fn name(&mut self, name: &'static str) -> &mut Json<'a> {
        self.put(name.as_bytes(), b"\":");
        self
    }

    /// What the compiler knows: [`quoted!`].
    #[inline(always)]
    pub fn constant<const LENGTH: usize>(&mut self, octets: &'static [u8; LENGTH]) -> &mut Json<'a> {
        self.buffer.extend_from_slice(octets);
        self
    }

    /// Writes a word that needs no escapes.
    #[inline]
    pub fn word(&mut self, word: &'static str) {
        self.put(word.as_bytes(), b"\",");
    }

    #[inline]
    fn put(&mut self, octets: &[u8], behind: &[u8; 2]) {
        self.buffer.push(b'"');
        self.buffer.extend_from_slice(octets);
        self.buffer.extend_from_slice(behind);
    }

    pub fn text(&mut self, text: &str) {
        self.buffer.push(b'"');
        match are_plain(text.as_bytes()) {
            true => self.buffer.extend_from_slice(text.as_bytes()),
            false => escape(text, &mut self.buffer),
        }
        self.buffer.extend_from_slice(b"\",");
    }

    /// Writes a text that is made here, in room that is kept, or null if it is empty.
    pub fn made_text(&mut self, make: impl FnOnce(&mut String)) {
        let mut text = std::mem::take(&mut self.room);
        make(&mut text);
        self.some_text(Some(&text));
        text.clear();
        self.room = text;
    }

    /// Most numbers are small.
    #[inline]
    pub fn number(&mut self, number: impl itoa::Integer + TryInto<u64> + Copy) {
        match number.try_into() {
            Ok(digit @ 0..=9) => self.buffer.extend_from_slice(&[b'0' + digit as u8, b',']),
            Ok(number) => put_number_and_comma(&mut self.buffer, number),
            Err(_) => self.negative(number),
        }
    }

    #[cold]
    fn negative(&mut self, number: impl itoa::Integer) {
        self.buffer.extend_from_slice(itoa::Buffer::new().format(number).as_bytes());
        self.buffer.push(b',');
    }

    /// Writes the number divided by a thousand.
    pub fn thousandths(&mut self, number: i64) {
        let (whole, rest) = (number / 1_000, number.unsigned_abs() % 1_000);
        let sign = if number < 0 && whole == 0 { "-" } else { "" };
        self.buffer.extend_from_slice(format!("{sign}{whole}.{rest:03},").as_bytes());
    }

    #[inline]
    pub fn truth(&mut self, is_true: bool) {
        let word: &[u8] = if is_true { b"true," } else { b"false," };
        self.buffer.extend_from_slice(word);
    }

    #[inline]
    pub fn null(&mut self) {
        self.buffer.extend_from_slice(b"null,");
    }

    #[inline]
    pub fn some<T>(&mut self, value: Option<T>, write: impl FnOnce(&mut Json<'a>, T)) {
        match value {
            Some(value) => write(self, value),
            None => self.null(),
        }
    }

    /// Writes a text that may be missing, or empty, which counts as missing.
    pub fn some_text(&mut self, text: Option<&str>) {
        self.some(text.filter(|text| !text.is_empty()), Json::text);
    }

    #[inline]
    pub fn some_number(&mut self, number: Option<impl itoa::Integer + TryInto<u64> + Copy>) {
        self.some(number, |json, number| json.number(number));
    }

    #[inline]
    pub fn some_word(&mut self, word: Option<&'static str>) {
        self.some(word, Json::word);
    }
}

/// The name of a member that is written often: the compiler puts what stands around it there, and makes a number or two
/// of all that.
#[macro_export]
macro_rules! name {
    ($json:expr, $name:expr) => {
        $json.constant($crate::quoted!($name, ""))
    };
}

/// A member whose number mostly is 0, which then is put there with its name.
#[macro_export]
macro_rules! mostly_0 {
    ($json:expr, $name:expr, $number:expr) => {
        match $number {
            0 => {
                $json.constant($crate::quoted!($name, "0,"));
            }
            number => $crate::name!($json, $name).number(number),
        }
    };
}

/// A member that mostly is null, which then is put there with its name.
#[macro_export]
macro_rules! mostly_null {
    ($json:expr, $name:expr, $value:expr, $write:expr) => {
        match $value {
            None => {
                $json.constant($crate::quoted!($name, "null,"));
            }
            Some(value) => $write($crate::name!($json, $name), value),
        }
    };
}

/// A name as it stands before its value, and what of that the compiler knows.
#[macro_export]
macro_rules! quoted {
    ($name:expr, $value:expr) => {{
        const NAME: &str = $name;
        const QUOTED: &[u8; NAME.len() + $value.len() + 3] = &$crate::json::quoted(NAME, $value);
        QUOTED
    }};
}

/// What [`quoted!`] makes.
pub const fn quoted<const LENGTH: usize>(name: &str, value: &str) -> [u8; LENGTH] {
    let (mut all, name, value, mut place) = ([b'"'; LENGTH], name.as_bytes(), value.as_bytes(), 0);
    while place < LENGTH {
        match place {
            _ if place > name.len() + 2 => all[place] = value[place - name.len() - 3],
            _ if place == name.len() + 2 => all[place] = b':',
            _ if place == name.len() + 1 || place == 0 => {}
            _ => all[place] = name[place - 1],
        }
        place += 1;
    }
    all
}

/// Whether a byte needs no escape.
fn is_plain(octet: u8) -> bool {
    matches!(octet, b' '..=b'~') && octet != b'"' && octet != b'\\'
}

/// Whether no byte needs an escape; of eight at a time, of the last ones some twice.
fn are_plain(octets: &[u8]) -> bool {
    let eight = |octets: &[u8]| octets.try_into().map_or(0, u64::from_le_bytes);
    let last = match octets.len().checked_sub(8) {
        Some(begin) => eight(&octets[begin..]),
        None => return octets.iter().all(|octet| is_plain(*octet)),
    };
    octets.chunks_exact(8).fold(special(last), |found, some| found | special(eight(some))) == 0
}

/// 0 where each byte of a word is plain.
fn special(word: u64) -> u64 {
    let has = |octet: u8| (word ^ ONES.wrapping_mul(octet.into())).wrapping_sub(ONES);
    let below = word.wrapping_sub(ONES.wrapping_mul(b' '.into()));
    let above = word.wrapping_add(ONES);
    (below | above | has(b'"') | has(b'\\') | word) & HIGHEST
}

/// Writes the text of a string: ASCII, with escapes for all else (RFC 8259, 7).
fn escape(text: &str, to: &mut Vec<u8>) {
    let mut plain = 0;
    for (place, letter) in text.char_indices() {
        if u8::try_from(letter).map_or(false, is_plain) {
            continue;
        }
        to.extend_from_slice(text[plain..place].as_bytes());
        plain = place + letter.len_utf8();
        match letter {
            '"' => to.extend_from_slice(b"\\\""),
            '\\' => to.extend_from_slice(b"\\\\"),
            '\n' => to.extend_from_slice(b"\\n"),
            '\r' => to.extend_from_slice(b"\\r"),
            '\t' => to.extend_from_slice(b"\\t"),
            '\u{8}' => to.extend_from_slice(b"\\b"),
            '\u{c}' => to.extend_from_slice(b"\\f"),
            _ => letter.encode_utf16(&mut [0; 2]).iter().for_each(|unit| {
                to.extend_from_slice(format!("\\u{unit:04x}").as_bytes());
            }),
        }
    }
    to.extend_from_slice(text[plain..].as_bytes());
}

#[cfg(test)]
mod tests {
    use super::{are_plain, is_plain, Json, FULL};

    #[test]
    fn one_byte_that_needs_an_escape() {
        for octet in 0..=u8::MAX {
            for (other, length) in [b' ', b'!', b'#', b'[', b']', b'~'].into_iter().zip([1, 7, 8, 9, 16, 23]) {
                for place in 0..length {
                    let mut octets = vec![other; length];
                    octets[place] = octet;
                    assert_eq!(are_plain(&octets), is_plain(octet), "{octets:?}");
                }
            }
        }
        assert!(are_plain(&[]));
    }

    #[test]
    fn what_was_given_on_goes_on() -> std::io::Result<()> {
        let mut written = Vec::new();
        let mut json = Json::new(&mut written);
        json.open(b'[');
        json.give()?;
        for _ in 0..FULL {
            json.number(10_u8);
            json.give()?;
        }
        json.close(b']');
        json.line();
        json.list([i64::MIN, -9, 9, 10], |json, number| json.number(number));
        json.finish()?;
        let wanted = format!("[{}10]\n[-9223372036854775808,-9,9,10]", "10,".repeat(FULL - 1));
        assert_eq!(String::from_utf8_lossy(&written), wanted);
        Ok(())
    }

    #[test]
    fn what_comes_again_is_copied() -> std::io::Result<()> {
        let (mut written, mut wanted) = (Vec::new(), Vec::new());
        let mut json = Json::new(&mut written);
        for round in 0..3 {
            for number in [1, 1, 2, 1, 3, 4, 5, 1, 5] {
                json.object(|json| {
                    json.often([number, 0, 0, 0], |json| json.list([number], |json, one| json.number(one)))
                });
                wanted.extend_from_slice(format!("{{[{number}]}},").as_bytes());
            }
            if round == 1 {
                json.finish()?;
                wanted.pop();
            }
        }
        json.finish()?;
        wanted.pop();
        assert_eq!(String::from_utf8_lossy(&written), String::from_utf8_lossy(&wanted));
        Ok(())
    }

    #[test]
    fn values_and_escapes() {
        let mut written = Vec::new();
        let mut json = Json::new(&mut written);
        json.object(|json| {
            json.name("a").text("\"\\\n\r\t\u{8}\u{c}\u{1}\u{7f}µ漢\u{1f600}~");
            json.name("b").list([1_i64, -2], |json, number| json.number(number));
            json.name("c").object(|json| json.name("d").some_text(Some("")));
            json.name("e").list([0_u8; 0], |json, number| json.number(number));
            json.name("f").truth(true);
            json.name("g").some_number(None::<u32>);
            name!(json, "h").word("x");
            json.name("i").list([1_234_567_i64, -1, -2_005, 0], |json, nanos| json.thousandths(nanos));
            for number in [0_i64, -1] {
                mostly_0!(json, "jk", number);
                mostly_null!(json, "lmn", Some(number).filter(|number| *number != 0), Json::number);
            }
        });
        json.line();
        json.number(7);
        let finished = json.finish();
        assert!(finished.is_ok());
        let wanted = r#"{"a":"\"\\\n\r\t\b\f\u0001\u007f\u00b5\u6f22\ud83d\ude00~","b":[1,-2],"c":{"d":null},"e":[],"#;
        let wanted = format!("{wanted}{}\n7", r#""f":true,"g":null,"h":"x","i":[1234.567,-0.001,-2.005,0.000],"#);
        let wanted = wanted.replace("\n7", "\"jk\":0,\"lmn\":null,\"jk\":-1,\"lmn\":-1}\n7");
        assert_eq!(String::from_utf8_lossy(&written), wanted);
    }
}
