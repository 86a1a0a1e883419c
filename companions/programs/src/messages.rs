//! Lines on standard error.

use std::ffi::OsStr;
use std::io::Write;
use std::os::unix::ffi::OsStrExt;

use crate::progress::without_line;

/// Writes a line on standard error. Nobody is told if that is closed.
pub fn say(program: &str, message: &str) {
    without_line(|| drop(writeln!(std::io::stderr(), "{program}: {message}")));
}

/// A name on one line, whatever bytes it holds: what a terminal would act on is escaped.
pub fn printable(name: impl AsRef<OsStr>) -> String {
    let mut rest = name.as_ref().as_bytes();
    let mut text = String::new();
    while !rest.is_empty() {
        let (whole, behind) = match std::str::from_utf8(rest) {
            Ok(whole) => (whole, rest.len()),
            Err(error) => {
                let whole = std::str::from_utf8(&rest[..error.valid_up_to()]).unwrap_or_default();
                (whole, whole.len())
            }
        };
        whole.chars().for_each(|letter| push(&mut text, letter));
        rest = &rest[behind..];
        if let Some((byte, more)) = rest.split_first() {
            text += &escape('x', u32::from(*byte), 2);
            rest = more;
        }
    }
    text
}

fn push(text: &mut String, letter: char) {
    let code = u32::from(letter);
    match letter {
        _ if is_printable(letter) => text.push(letter),
        '\n' => text.push_str("\\n"),
        '\r' => text.push_str("\\r"),
        '\t' => text.push_str("\\t"),
        _ if code < 0x100 => *text += &escape('x', code, 2),
        _ if code < 0x10000 => *text += &escape('u', code, 4),
        _ => *text += &escape('U', code, 8),
    }
}

fn escape(kind: char, code: u32, digits: usize) -> String {
    format!("\\{kind}{code:0digits$x}")
}

/// By the standard library's table. A mark that combines is printable behind a letter.
fn is_printable(letter: char) -> bool {
    matches!(letter, '"' | '\'' | '\\') || format!("a{letter}").escape_debug().count() == 2
}

#[cfg(test)]
mod tests {
    use super::printable;
    use std::ffi::OsStr;
    use std::os::unix::ffi::OsStrExt;

    #[test]
    fn what_a_terminal_acts_on_is_escaped() {
        let cases: [(&[u8], &str); 7] = [
            (b"a 'b' \"c\" \\d", "a 'b' \"c\" \\d"),
            (b"re\x1b[31md\n", "re\\x1b[31md\\n"),
            ("é e\u{301} 漢".as_bytes(), "é e\u{301} 漢"),
            ("\u{202e}x\u{9b}".as_bytes(), "\\u202ex\\x9b"),
            (b"a\xffb\xc3", "a\\xffb\\xc3"),
            ("\u{e0001}".as_bytes(), "\\U000e0001"),
            (b"", ""),
        ];
        for (name, shown) in cases {
            assert_eq!(printable(OsStr::from_bytes(name)), shown);
        }
    }
}
