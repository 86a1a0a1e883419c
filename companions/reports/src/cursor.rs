//! Reads a line of text word by word, from its front.

/// What is left of a line.
#[derive(Clone, Copy)]
pub struct Cursor<'a> {
    rest: &'a str,
}

/// No number of a report has more digits.
const MOST_DIGITS: usize = 20;

impl<'a> Cursor<'a> {
    pub fn new(line: &'a str) -> Cursor<'a> {
        Cursor { rest: line }
    }

    pub fn rest(&self) -> &'a str {
        self.rest
    }

    /// Passes over this text.
    pub fn literal(&mut self, text: &str) -> Option<()> {
        self.rest = self.rest.strip_prefix(text)?;
        Some(())
    }

    /// The front of the line, of letters for which this holds; not empty.
    pub fn while_some(&mut self, holds: impl Fn(u8) -> bool) -> Option<&'a str> {
        let length = self.rest.bytes().position(|byte| !holds(byte)).unwrap_or(self.rest.len());
        let (front, rest) = self.rest.split_at(length);
        self.rest = rest;
        (length > 0).then_some(front)
    }

    pub fn number(&mut self) -> Option<u64> {
        let (mut number, mut length) = (0_u64, 0);
        for byte in self.rest.bytes().take_while(u8::is_ascii_digit) {
            number = number.checked_mul(10)?.checked_add(u64::from(byte - b'0'))?;
            length += 1;
        }
        self.rest = self.rest.get(length..)?;
        (1..=MOST_DIGITS).contains(&length).then_some(number)
    }

    /// A number that may be negative.
    pub fn signed(&mut self) -> Option<i64> {
        let is_negative = self.literal("-").is_some();
        let size = i64::try_from(self.number()?).ok()?;
        Some(if is_negative { -size } else { size })
    }

    /// An endpoint, of ASCII that shows.
    pub fn endpoint(&mut self) -> Option<&'a str> {
        self.while_some(|byte| byte.is_ascii_graphic())
    }

    /// A name of small letters, digits and hyphens.
    pub fn name(&mut self) -> Option<&'a str> {
        self.while_some(|byte| matches!(byte, b'a'..=b'z' | b'0'..=b'9' | b'-'))
    }

    pub fn end(&self) -> Option<()> {
        self.rest.is_empty().then_some(())
    }
}
