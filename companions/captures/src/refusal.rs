//! Why a capture is refused: a name, which stays from version to version (docs/STATUS.md), and a sentence that helps.

use std::borrow::Cow;
use std::fmt;

/// How much of a file is looked at to see what else it is.
pub const LOOKED_AT: usize = 32;

#[derive(Debug)]
pub struct Refusal {
    name: Cow<'static, str>,
    help: Option<&'static str>,
}

impl Refusal {
    pub fn named(name: &'static str) -> Refusal {
        Refusal { name: Cow::Borrowed(name), help: help_by(name) }
    }

    /// The link type of a classic pcap file is not read.
    pub fn of_link(link: u16) -> Refusal {
        Refusal { name: Cow::Owned(format!("link-type {link}")), help: Some(help_by_link(link)) }
    }

    /// The file begins so, which is neither pcap nor pcapng.
    pub fn of_beginning(bytes: &[u8]) -> Refusal {
        let name = if bytes.len() < 4 { "short-header" } else { "bad-magic" };
        Refusal { name: Cow::Borrowed(name), help: Some(help_by_beginning(bytes)) }
    }

    /// With the name of the file, as messages have it.
    pub fn of_file(&self, file: &str) -> String {
        match self.help {
            Some(help) => format!("{self}: {file}: {help}"),
            None => format!("{self}: {file}"),
        }
    }
}

impl fmt::Display for Refusal {
    fn fmt(&self, out: &mut fmt::Formatter<'_>) -> fmt::Result {
        write!(out, "capture refused: {}", self.name)
    }
}

fn help_by(name: &str) -> Option<&'static str> {
    Some(match name {
        "short-header" => "it ends within its header: the capture was not ended",
        "bad-version" => "editcap -F pcap writes it anew",
        "lz4" => "lz4 -dc unpacks it",
        "simple-packet-block" => "its packets have no times: capture with dumpcap or tcpdump",
        "bad-block" | "too-long-block" | "no-interface" => "it is damaged: editcap may save the packets before that",
        _ => return None,
    })
}

/// Numbers of link types, by <https://www.tcpdump.org/linktypes.html>.
fn help_by_link(link: u16) -> &'static str {
    match link {
        105 | 119 | 127 | 163 | 192 => "Wi-Fi in monitor mode: capture on an interface that has IP packets",
        186 | 189 | 220 | 249 | 288 | 293..=295 => "packets of USB: capture on an interface of a network",
        187 | 201 | 251 | 254..=256 | 272 => "packets of Bluetooth: capture on an interface of a network",
        _ => "capture on Ethernet, or with -i any",
    }
}

fn help_by_beginning(bytes: &[u8]) -> &'static str {
    let begins = |with: &[&str]| with.iter().any(|text| bytes.starts_with(text.as_bytes()));
    if bytes.is_empty() {
        "it is empty: a capture that was not ended, or a command before the pipe that failed"
    } else if bytes.len() < 4 {
        "it ends within its header: the capture was not ended"
    } else if begins(&["capture records ", "capture cut ", "connection "]) {
        "it is a report, and no capture"
    } else if begins(&["CLIENT_", "SERVER_", "EXPORTER_", "EARLY_", "# SSL", "#TLS", "RSA "]) {
        "it is a key log, and no capture: -k names it beside one"
    } else if begins(&["PK\x03\x04", "7z\u{bc}", "Rar!"]) {
        "it is an archive: unpack it first"
    } else if bytes.iter().all(|byte| *byte == 0) {
        "it begins with zeros: its disk was full, or it was copied while it was written"
    } else if bytes.iter().all(|byte| byte.is_ascii_graphic() || b" \t\r\n".contains(byte)) {
        "it is text, and no capture"
    } else {
        "it is neither pcap nor pcapng: editcap reads most kinds of captures"
    }
}

#[cfg(test)]
mod tests {
    use super::Refusal;
    use crate::{Format, Source};

    /// What is said of a file with these bytes.
    fn said(bytes: &[u8]) -> String {
        let mut source = Source::new(Box::new(std::io::Cursor::new(bytes.to_vec()))).unwrap();
        match Format::of(&mut source) {
            Err(crate::Error::Refused(refusal)) => refusal.of_file("a.pcap"),
            other => panic!("{other:?}"),
        }
    }

    #[test]
    fn files_that_are_no_captures() {
        let rows: [(&[u8], &str); 9] = [
            (b"", "short-header: a.pcap: it is empty: "),
            (b"\xd4\xc3\xb2", "short-header: a.pcap: it ends within its header: "),
            (b"capture records 19 segments 19 snapped 0", "bad-magic: a.pcap: it is a report, and no capture"),
            (b"CLIENT_RANDOM 00112233", "bad-magic: a.pcap: it is a key log, and no capture: "),
            (b"PK\x03\x04\x14\0\0\0", "bad-magic: a.pcap: it is an archive: "),
            (&[0; 40], "bad-magic: a.pcap: it begins with zeros: "),
            (b"HTTP/1.1 404 Not Found\r\n", "bad-magic: a.pcap: it is text, and no capture"),
            (b"\x7fELF\x02\x01\x01\0", "bad-magic: a.pcap: it is neither pcap nor pcapng: "),
            (b"abc", "short-header: a.pcap: it ends within its header: "),
        ];
        for (bytes, wanted) in rows {
            assert!(said(bytes).starts_with(&format!("capture refused: {wanted}")), "{}", said(bytes));
        }
    }

    #[test]
    fn names_alone_and_with_help() {
        let wifi = Refusal::of_link(105);
        assert_eq!(wifi.to_string(), "capture refused: link-type 105");
        assert!(wifi.of_file("a").starts_with("capture refused: link-type 105: a: Wi-Fi in monitor mode: "));
        assert!(Refusal::of_link(9).of_file("a").ends_with(": capture on Ethernet, or with -i any"));
        assert_eq!(Refusal::named("address-clash").of_file("a"), "capture refused: address-clash: a");
    }
}
