//! What proxies put before a connection's bytes: a line of the PROXY protocol, of either version, and CONNECT with its
//! answer (RFC 9110, 9.3.6). The bytes behind them are the connection's.

const V1: &[u8] = b"PROXY ";
/// The longest line of version 1, with its line feed.
const LONGEST_V1: usize = 107;
const V2: &[u8] = b"\r\n\r\n\0\r\nQUIT\n";
/// Signature, version, family, and the length of what follows.
const V2_HEADER: usize = 16;
const CONNECT: &[u8] = b"CONNECT ";
const LONGEST_HEAD: usize = 1 << 14;
const END_OF_HEAD: &[u8] = b"\r\n\r\n";

#[derive(Clone, Copy, Debug, PartialEq, Eq)]
pub enum Kind {
    ProxyV1,
    ProxyV2,
    Connect,
}

impl Kind {
    pub fn name(self) -> &'static str {
        match self {
            Kind::ProxyV1 => "proxy-v1",
            Kind::ProxyV2 => "proxy-v2",
            Kind::Connect => "connect",
        }
    }
}

/// What stands before a connection's bytes, and how many bytes of client and server it has.
#[derive(Clone, Copy, Debug, PartialEq, Eq)]
pub struct Preamble {
    pub kind: Kind,
    pub lengths: [u32; 2],
}

#[derive(Clone, Copy, Debug, PartialEq, Eq)]
pub enum Looked {
    No,
    /// More bytes will tell.
    Maybe,
    Yes(Preamble),
}

/// Looks at the first bytes of client and server.
pub fn look(client: &[u8], server: &[u8]) -> Looked {
    if client.is_empty() {
        return Looked::No;
    }
    let begins = |word: &[u8]| client.iter().zip(word).all(|(byte, of_word)| byte == of_word);
    match () {
        () if begins(V1) => proxy_v1(client),
        () if begins(V2) => proxy_v2(client),
        () if begins(CONNECT) => connect(client, server),
        () => Looked::No,
    }
}

fn found(kind: Kind, client: usize, server: usize) -> Looked {
    Looked::Yes(Preamble { kind, lengths: [client as u32, server as u32] })
}

fn proxy_v1(client: &[u8]) -> Looked {
    let line = &client[..client.len().min(LONGEST_V1)];
    match end_of(line, b"\r\n") {
        Some(end) if is_v1(&line[..end]) => found(Kind::ProxyV1, end, 0),
        None if client.len() < LONGEST_V1 => Looked::Maybe,
        _ => Looked::No,
    }
}

fn is_v1(line: &[u8]) -> bool {
    [&b"PROXY TCP4 "[..], b"PROXY TCP6 ", b"PROXY UNKNOWN"].iter().any(|word| line.starts_with(word))
}

fn proxy_v2(client: &[u8]) -> Looked {
    match client.get(..V2_HEADER) {
        None => Looked::Maybe,
        Some(&[.., version, _, high, low]) if version >> 4 == 2 => {
            let end = V2_HEADER + usize::from(u16::from_be_bytes([high, low]));
            if client.len() < end {
                Looked::Maybe
            } else {
                found(Kind::ProxyV2, end, 0)
            }
        }
        Some(_) => Looked::No,
    }
}

/// A CONNECT that was answered with success.
fn connect(client: &[u8], server: &[u8]) -> Looked {
    match (head_of(client), head_of(server)) {
        (Head::Whole(asked), Head::Whole(answer)) if is_connect(&client[..asked]) && is_success(&server[..answer]) => {
            found(Kind::Connect, asked, answer)
        }
        (Head::None, _) | (_, Head::None) | (Head::Whole(_), Head::Whole(_)) => Looked::No,
        _ => Looked::Maybe,
    }
}

enum Head {
    Whole(usize),
    Begun,
    None,
}

fn head_of(data: &[u8]) -> Head {
    let seen = &data[..data.len().min(LONGEST_HEAD)];
    match end_of(seen, END_OF_HEAD) {
        Some(end) => Head::Whole(end),
        None if data.len() < LONGEST_HEAD => Head::Begun,
        None => Head::None,
    }
}

fn is_connect(head: &[u8]) -> bool {
    let line = head.split(|byte| *byte == b'\r').next().unwrap_or_default();
    line.ends_with(b" HTTP/1.1") || line.ends_with(b" HTTP/1.0")
}

fn is_success(head: &[u8]) -> bool {
    (head.starts_with(b"HTTP/1.1 2") || head.starts_with(b"HTTP/1.0 2")) && head.len() > 12
}

/// Where the first of these words ends.
fn end_of(data: &[u8], word: &[u8]) -> Option<usize> {
    data.windows(word.len()).position(|part| part == word).map(|at| at + word.len())
}
