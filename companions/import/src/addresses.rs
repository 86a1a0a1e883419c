//! Endpoints as they are in the original, and in words.

use std::collections::HashMap;
use std::ffi::OsStr;
use std::fmt::Write;
use std::net::Ipv6Addr;
use std::os::unix::ffi::OsStrExt;

use captures::Ends;

/// How many letters an address of IPv4 has with its port, at most.
const LONGEST_ENDPOINT: usize = "255.255.255.255:65535".len();

/// What addresses of IPv4 stand for.
#[derive(Default)]
pub struct Addresses {
    originals: HashMap<[u8; 4], String>,
}

impl Addresses {
    /// Notes a stand-in, and answers the address that it stands for as RFC 5952 writes it.
    pub fn add(&mut self, stand_in: [u8; 4], original: [u8; 16]) -> &str {
        self.originals.entry(stand_in).or_insert_with(|| text_of(original))
    }

    /// The sender of what has these ends, and the receiver.
    pub fn endpoints(&self, ends: &Ends) -> (String, String) {
        let [a, b, c, d, e, f, g, h, i, j, k, l] = *ends;
        (self.endpoint([a, b, c, d], [i, j]), self.endpoint([e, f, g, h], [k, l]))
    }

    fn endpoint(&self, address: [u8; 4], port: [u8; 2]) -> String {
        let port = u16::from_be_bytes(port);
        if let Some(original) = self.originals.get(&address) {
            return format!("[{original}]:{port}");
        }
        let mut text = String::with_capacity(LONGEST_ENDPOINT);
        for (number, behind) in address.iter().zip("...:".chars()) {
            text.push_str(itoa::Buffer::new().format(*number));
            text.push(behind);
        }
        text.push_str(itoa::Buffer::new().format(port));
        text
    }
}

/// An address of IPv6 in the form of RFC 5952, in hexadecimal digits to its end.
fn text_of(address: [u8; 16]) -> String {
    let groups = Ipv6Addr::from(address).segments();
    let (begin, length) = longest_zeros(&groups);
    let written = |groups: &[u16]| groups.iter().map(|group| format!("{group:x}")).collect::<Vec<_>>().join(":");
    if length < 2 {
        return written(&groups);
    }
    format!("{}::{}", written(&groups[..begin]), written(&groups[begin + length..]))
}

/// The first of the longest runs of groups that are 0.
fn longest_zeros(groups: &[u16; 8]) -> (usize, usize) {
    let mut best = (0, 0);
    for begin in 0..groups.len() {
        let length = groups[begin..].iter().take_while(|group| **group == 0).count();
        if length > best.1 {
            best = (begin, length);
        }
    }
    best
}

/// A word of the map: bytes outside ! to ~, and the percent sign, as %XX.
pub fn escaped(word: &[u8]) -> String {
    word.iter().fold(String::new(), |mut text, byte| {
        match byte {
            b'!'..=b'~' if *byte != b'%' => text.push(char::from(*byte)),
            _ => write!(text, "%{byte:02X}").unwrap_or_default(),
        }
        text
    })
}

pub fn escaped_path(path: &OsStr) -> String {
    escaped(path.as_bytes())
}
