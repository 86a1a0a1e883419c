//! Reads maps of imports line by line (docs/MAP.md): which packet of which file completed a record of the capture that
//! was made, and what became of each connection. A record that was made up has the packet that it stands for.

use std::fmt;
use std::io::{self, BufRead};

use crate::cursor::Cursor;
use crate::reading::read_line;

const FIRST_LINE: &str = "h2audit-map 1";
/// The first line of a map of connections that were joined.
const OF_JOINED: &str = "h2audit-map 2";
/// More than any line of a map has: a path may have 4,096 bytes, of which each may be three letters.
const LONGEST_LINE: usize = 65_536;

/// Why no more lines are read.
#[derive(Debug)]
pub enum MapError {
    NoMap,
    /// It is a map of this version, which nothing is known of.
    Version(u64),
    /// The line of this number is none of a map.
    NoLine(u64),
    Io(io::Error),
}

impl fmt::Display for MapError {
    fn fmt(&self, to: &mut fmt::Formatter<'_>) -> fmt::Result {
        match self {
            MapError::NoMap => to.write_str("not a map of h2audit-import"),
            MapError::Version(2) => to.write_str("a map of connections that were joined (--joined) is not read here"),
            MapError::Version(version) => write!(to, "version {version} of the map is unknown: this is for version 1"),
            MapError::NoLine(number) => write!(to, "line {number} is no line of a map"),
            MapError::Io(error) => error.fmt(to),
        }
    }
}

impl From<io::Error> for MapError {
    fn from(error: io::Error) -> MapError {
        MapError::Io(error)
    }
}

/// A line of a map. Later versions may have more of the other lines, and who needs one reads what it says.
#[derive(Debug, PartialEq, Eq)]
pub enum MapLine<'a> {
    File { number: u64, path: Vec<u8> },
    Record { number: u64, file: u64, packet: u64 },
    Other(&'a str),
}

/// The lines of a map behind the first, which says that it is one.
pub struct MapReader<R> {
    source: R,
    line: Vec<u8>,
    number: u64,
    is_joined: bool,
}

impl<R: BufRead> MapReader<R> {
    pub fn new(source: R) -> Result<MapReader<R>, MapError> {
        MapReader::of(source, false)
    }

    /// Also of a map of connections that were joined.
    pub fn with_joined(source: R) -> Result<MapReader<R>, MapError> {
        MapReader::of(source, true)
    }

    fn of(source: R, takes_joined: bool) -> Result<MapReader<R>, MapError> {
        let mut reader = MapReader { source, line: Vec::new(), number: 1, is_joined: false };
        read_line(&mut reader.source, &mut reader.line, LONGEST_LINE)?;
        let text = std::str::from_utf8(&reader.line).map_err(|_| MapError::NoMap)?;
        let text = text.strip_suffix('\n').unwrap_or(text);
        reader.is_joined = takes_joined && text == OF_JOINED;
        if reader.is_joined || text == FIRST_LINE {
            return Ok(reader);
        }
        let version = text.strip_prefix("h2audit-map ").and_then(|version| version.parse().ok());
        Err(version.map_or(MapError::NoMap, MapError::Version))
    }

    /// What the next line says; none at the end.
    pub fn next_line(&mut self) -> Result<Option<MapLine<'_>>, MapError> {
        read_line(&mut self.source, &mut self.line, LONGEST_LINE)?;
        if self.line.is_empty() {
            return Ok(None);
        }
        self.number += 1;
        let text = std::str::from_utf8(&self.line).map_err(|_| MapError::NoLine(self.number))?;
        let text = text.strip_suffix('\n').unwrap_or(text);
        let line = match text.split(' ').next() {
            Some("record") => record(text, "record "),
            Some("made") if self.is_joined => record(text, "made "),
            Some("file") => file(text),
            _ => Some(MapLine::Other(text)),
        };
        line.map(Some).ok_or(MapError::NoLine(self.number))
    }

    /// Whether the last line has its line feed: a map that was written to its end has.
    pub fn is_whole(&self) -> bool {
        self.line.is_empty() || self.line.ends_with(b"\n")
    }

    /// The number of the line that came last.
    pub fn number(&self) -> u64 {
        self.number
    }
}

fn record(text: &str, word: &str) -> Option<MapLine<'static>> {
    let mut line = Cursor::new(text);
    line.literal(word)?;
    let number = line.number()?;
    line.literal(" file ")?;
    let file = line.number()?;
    line.literal(" packet ")?;
    let packet = line.number()?;
    line.end()?;
    Some(MapLine::Record { number, file, packet })
}

fn file(text: &str) -> Option<MapLine<'static>> {
    let mut line = Cursor::new(text);
    line.literal("file ")?;
    let number = line.number()?;
    line.literal(" ")?;
    let path = line.while_some(|byte| matches!(byte, b'!'..=b'~'))?;
    line.end()?;
    Some(MapLine::File { number, path: unescaped(path) })
}

/// The bytes of a path, of which some are written %XX.
fn unescaped(path: &str) -> Vec<u8> {
    let mut bytes = Vec::with_capacity(path.len());
    let mut rest = path;
    while let Some((before, behind)) = rest.split_once('%') {
        bytes.extend_from_slice(before.as_bytes());
        let digits = behind.get(..2).filter(|digits| digits.bytes().all(|byte| byte.is_ascii_hexdigit()));
        match digits.and_then(|digits| u8::from_str_radix(digits, 16).ok()) {
            Some(byte) => {
                bytes.push(byte);
                rest = &behind[2..];
            }
            None => {
                bytes.push(b'%');
                rest = behind;
            }
        }
    }
    bytes.extend_from_slice(rest.as_bytes());
    bytes
}

#[cfg(test)]
mod tests {
    use super::{MapError, MapLine, MapReader};

    #[test]
    fn lines_of_a_map() -> Result<(), MapError> {
        let text: &[u8] = b"h2audit-map 1\nfile 1 some%20where/%C3%a4%2.pcap\nrecord 3 file 1 packet 14\nlater words";
        let mut reader = MapReader::new(text)?;
        let path = b"some where/\xc3\xa4%2.pcap".to_vec();
        assert_eq!(reader.next_line()?, Some(MapLine::File { number: 1, path }));
        assert_eq!(reader.next_line()?, Some(MapLine::Record { number: 3, file: 1, packet: 14 }));
        assert_eq!(reader.next_line()?, Some(MapLine::Other("later words")));
        assert!(!reader.is_whole());
        assert_eq!(reader.next_line()?, None);
        Ok(())
    }

    #[test]
    fn what_is_no_map() {
        let refused = |text: &[u8]| MapReader::new(text).err().map(|error| error.to_string());
        assert_eq!(refused(b"").as_deref(), Some("not a map of h2audit-import"));
        assert_eq!(refused(b"\xff\n").as_deref(), Some("not a map of h2audit-import"));
        let version = "version 3 of the map is unknown: this is for version 1";
        assert_eq!(refused(b"h2audit-map 3\n").as_deref(), Some(version));
        let joined = "a map of connections that were joined (--joined) is not read here";
        assert_eq!(refused(b"h2audit-map 2\n").as_deref(), Some(joined));
        let mut of_joined = MapReader::with_joined(&b"h2audit-map 2\nmade 1 file 1 packet 2\n"[..]).ok();
        let made = of_joined.as_mut().and_then(|reader| reader.next_line().ok());
        assert_eq!(made, Some(Some(MapLine::Record { number: 1, file: 1, packet: 2 })));
        let mut reader = MapReader::new(&b"h2audit-map 1\nrecord 1 packet 2\n"[..]).ok();
        let said = reader.as_mut().and_then(|reader| reader.next_line().err()).map(|error| error.to_string());
        assert_eq!(said.as_deref(), Some("line 2 is no line of a map"));
    }
}
