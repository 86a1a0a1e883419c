//! Sessions of TLS 1.2 that go on in another connection, by the server's identifier (RFC 5246, 7.3) or by a ticket
//! (RFC 5077).
//!
//! Both connections have one master secret, and a key log may have a line for the first alone, whose secret may still
//! come. So what was met is put together once, at the end of the capture. What can be read twice is then read anew with
//! the secrets that were found; else such a connection waits until then.

use std::collections::hash_map::RandomState;
use std::collections::HashMap;
use std::fmt::Write;
use std::hash::{BuildHasher, Hasher};

use crate::hellos::Random;
use crate::key_log::{Keys, Label};

/// What the connections say of sessions. Only hashes of names are kept, which take less memory.
#[derive(Default)]
pub struct Sessions {
    /// From a name to the client's random.
    began: HashMap<u64, Random>,
    /// Connection's number, client's random, and names.
    resumed: Vec<(u64, Random, Vec<u64>)>,
    hashing: RandomState,
}

impl Sessions {
    /// A server gave its session a name, which is an identifier or a ticket.
    pub fn begin(&mut self, name: &[u8], random: &Random) {
        if !name.is_empty() {
            let hash = self.hash_of(name);
            self.began.entry(hash).or_insert(*random);
        }
    }

    /// A connection goes on with a session of one of these names.
    pub fn resume(&mut self, names: [&[u8]; 2], number: u64, random: &Random) {
        let names = names.iter().filter(|name| !name.is_empty()).map(|name| self.hash_of(name)).collect();
        self.resumed.push((number, *random, names));
    }

    fn hash_of(&self, name: &[u8]) -> u64 {
        let mut hasher = self.hashing.build_hasher();
        hasher.write(name);
        hasher.finish()
    }
}

/// Lines of a key log for the connections that were resumed, as far as their first handshake has one.
pub fn lines_for(sessions: &Sessions, keys: &Keys) -> Vec<u8> {
    let mut resumed: Vec<_> = sessions.resumed.iter().collect();
    resumed.sort();
    let mut masters: HashMap<Random, Vec<u8>> = HashMap::new();
    let mut order = Vec::new();
    for (_, random, names) in resumed {
        let firsts = names.iter().filter_map(|name| sessions.began.get(name));
        let mut secrets = firsts.filter_map(|first| {
            masters.get(first).cloned().or_else(|| keys.find(first, Label::Master).map(<[u8]>::to_vec))
        });
        if let Some(secret) = secrets.next() {
            drop(secrets);
            if masters.insert(*random, secret).is_none() {
                order.push(*random);
            }
        }
    }
    let mut lines = String::new();
    for random in order {
        writeln!(lines, "CLIENT_RANDOM {} {}", hexadecimal(&random), hexadecimal(&masters[&random]))
            .unwrap_or_default();
    }
    lines.into_bytes()
}

fn hexadecimal(bytes: &[u8]) -> String {
    bytes.iter().fold(String::new(), |mut text, byte| {
        write!(text, "{byte:02x}").unwrap_or_default();
        text
    })
}

#[cfg(test)]
mod tests {
    use super::*;

    /// A resumed connection gets a ticket of its own, which the next one shows.
    #[test]
    fn tickets_in_a_row() {
        let (mut keys, mut sessions) = (Keys::default(), Sessions::default());
        keys.add_text(format!("CLIENT_RANDOM {} {}\n", "aa".repeat(32), "12".repeat(48)).as_bytes());
        sessions.begin(b"first ticket", &[0xaa; 32]);
        sessions.resume([b"unknown", b"second ticket"], 9, &[0xcc; 32]);
        sessions.resume([b"first ticket", b""], 5, &[0xbb; 32]);
        sessions.begin(b"second ticket", &[0xbb; 32]);
        sessions.resume([b"unknown", b""], 11, &[0xdd; 32]);
        let wanted = ["bb", "cc"].map(|byte| format!("CLIENT_RANDOM {} {}\n", byte.repeat(32), "12".repeat(48)));
        assert_eq!(lines_for(&sessions, &keys), wanted.concat().into_bytes());
    }
}
