//! What a connection begins with: its first bytes show that nothing has to be inferred.

use cutter::{kind, Head, HEADER, PREFACE};

/// So many bytes of each flow tell.
pub const FRONT: usize = PREFACE.len() + HEADER;

/// Whether these are the first bytes of a client and of its server: the preface and SETTINGS of HTTP/2 (RFC 9113, 3.4),
/// or the hellos of TLS (RFC 8446, 4.1).
pub fn are_first(client: &[u8], server: &[u8]) -> bool {
    let is_http2 = client.starts_with(PREFACE) && begins_with_settings(server);
    is_http2 || is_hello(client, 1) && is_hello(server, 2)
}

/// Whether a server's bytes begin so: SETTINGS, or the hello of TLS.
pub fn is_first_of_server(bytes: &[u8]) -> bool {
    begins_with_settings(bytes) || is_hello(bytes, 2)
}

fn begins_with_settings(bytes: &[u8]) -> bool {
    let head = bytes.get(..HEADER).and_then(|header| <&[u8; HEADER]>::try_from(header).ok()).map(Head::of);
    head.map_or(false, |head| (head.kind, head.flags, head.stream, head.length % 6) == (kind::SETTINGS, 0, 0, 0))
}

/// A record of TLS with the beginning of a hello: 1 is the client's, 2 the server's.
fn is_hello(bytes: &[u8], kind: u8) -> bool {
    matches!(bytes, [22, 3, 0..=3, _, _, first, ..] if *first == kind)
}
