//! Lines of text with colours where there are some, folded at the width of a terminal.

use std::io::{self, Write};

use explain::answer::{At, Files};

use crate::wording::{escaped, letters};

/// A colour, by what a terminal takes for it (ECMA-48, 8.3.117).
#[derive(Clone, Copy, Debug, PartialEq, Eq)]
pub enum Colour {
    Plain,
    Bold,
    Dim,
    Red,
    Yellow,
}

/// How text is to look: its colours, its width, and whether all is shown or the worst alone.
#[derive(Clone, Copy, Debug, Default)]
pub struct Look {
    pub has_colours: bool,
    pub width: Option<usize>,
    pub is_all: bool,
    /// Whether both legs of all requests of a proxy are shown.
    pub has_all_legs: bool,
}

impl Look {
    /// Whether every request is shown.
    pub fn has_all_requests(&self) -> bool {
        self.is_all || self.has_all_legs
    }
}

pub struct Page<'a> {
    pub look: Look,
    files: &'a Files,
    to: &'a mut dyn Write,
}

impl<'a> Page<'a> {
    /// Text about packets of these files.
    pub fn new(look: Look, files: &'a Files, to: &'a mut dyn Write) -> Page<'a> {
        Page { look, files, to }
    }

    pub fn line(&mut self, text: &str) -> io::Result<()> {
        self.painted(text, Colour::Plain)
    }

    /// Writes a sentence, folded at the width if there is one; lines behind the first begin with the indent.
    pub fn folded(&mut self, text: &str, indent: &str, colour: Colour) -> io::Result<()> {
        let width = match self.look.width {
            Some(width) if letters(text) > width => width,
            _ => return self.painted(text, colour),
        };
        let words_at = text.len() - text.trim_start_matches(' ').len();
        let mut words = text[words_at..].split(' ');
        let mut line = format!("{}{}", &text[..words_at], words.next().unwrap_or_default());
        let mut length = letters(&line);
        for word in words {
            let size = letters(word);
            if !word.is_empty() && length + 1 + size > width {
                self.painted(line.trim_end_matches(' '), colour)?;
                line = format!("{indent}{word}");
                length = letters(&line);
            } else {
                line.push(' ');
                line.push_str(word);
                length += 1 + size;
            }
        }
        self.painted(&line, colour)
    }

    fn painted(&mut self, text: &str, colour: Colour) -> io::Result<()> {
        let number = match colour {
            Colour::Plain => "",
            Colour::Bold => "1",
            Colour::Dim => "2",
            Colour::Red => "31",
            Colour::Yellow => "33",
        };
        if self.look.has_colours && !number.is_empty() {
            writeln!(self.to, "\x1b[{number}m{text}\x1b[0m")
        } else {
            writeln!(self.to, "{text}")
        }
    }

    pub fn packet(&self, at: Option<At>) -> String {
        packet_of(self.files, at)
    }

    pub fn packets(&self, first: Option<At>, last: Option<At>) -> String {
        packets_of(self.files, first, last)
    }
}

fn packet_of(files: &Files, at: Option<At>) -> String {
    let at = match at {
        Some(at) => at,
        None => return "no packet".to_string(),
    };
    let (file, packet) = files.place(at.packet);
    format!("packet {packet}{}", of_file(files, file))
}

/// The packets from one to another; where there are several files, with their names.
pub fn packets_of(files: &Files, first: Option<At>, last: Option<At>) -> String {
    let (first, last) = match (first, last) {
        (Some(first), Some(last)) if first.packet != last.packet => (first, last),
        _ => return packet_of(files, first.or(last)),
    };
    let ((first_file, begin), (last_file, end)) = (files.place(first.packet), files.place(last.packet));
    if first_file != last_file {
        return format!("{} to {}", packet_of(files, Some(first)), packet_of(files, Some(last)));
    }
    format!("packets {begin}-{end}{}", of_file(files, last_file))
}

fn of_file(files: &Files, file: usize) -> String {
    match file {
        0 => String::new(),
        _ if files.names.len() < 2 => String::new(),
        _ => format!(" of {}", escaped(files.name(file))),
    }
}

#[cfg(test)]
mod tests {
    use explain::answer::{At, Files};

    use super::{Colour, Look, Page};

    fn folded(text: &str, width: usize, has_colours: bool) -> String {
        let mut written = Vec::new();
        let look = Look { has_colours, width: Some(width), ..Look::default() };
        let files = Files::default();
        let done = Page::new(look, &files, &mut written).folded(text, "    ", Colour::Red);
        assert!(done.is_ok());
        String::from_utf8_lossy(&written).into_owned()
    }

    #[test]
    fn lines_are_folded() {
        assert_eq!(folded("  a sentence of words", 21, false), "  a sentence of words\n");
        assert_eq!(folded("  a sentence of words", 20, false), "  a sentence of\n    words\n");
        assert_eq!(folded("  a sentence   of µs", 13, false), "  a sentence\n    of µs\n");
        assert_eq!(folded("longer-than-this x", 5, true), "\x1b[31mlonger-than-this\x1b[0m\n\x1b[31m    x\x1b[0m\n");
    }

    #[test]
    fn packets_are_named_with_their_files() {
        let at = |packet| Some(At { packet, time: 0, frame: 0 });
        let mut written = Vec::new();
        let files = Files { names: vec!["a\n".to_string(), "b".to_string()], starts: vec![0, 10] };
        let page = Page::new(Look::default(), &files, &mut written);
        assert_eq!(page.packets(at(3), at(10)), "packets 3-10 of a\\n");
        assert_eq!(page.packets(at(3), at(11)), "packet 3 of a\\n to packet 1 of b");
        assert_eq!(page.packets(at(12), at(12)), "packet 2 of b");
        assert_eq!((page.packets(None, None), page.packet(at(0))), ("no packet".to_string(), "packet 0".to_string()));
        let files = Files { names: vec!["a".to_string()], starts: vec![0] };
        let page = Page::new(Look::default(), &files, &mut written);
        assert_eq!(page.packets(at(3), at(10)), "packets 3-10");
    }
}
