//! Segments that are made up.

use crate::internet::Ends;

/// So many bytes stand before the payload of a segment that is made up.
pub const MADE_HEADERS: usize = 40;

/// The headers of IPv4 and TCP of a segment that is made up, with its number and what it acknowledges. It has no sums.
pub fn made_headers(
    ends: &Ends,
    [sequence, acknowledgement]: [u32; 2],
    flags: u8,
    payload: usize,
) -> [u8; MADE_HEADERS] {
    let mut headers = [0; MADE_HEADERS];
    headers[0] = 0x45;
    headers[2..4].copy_from_slice(&((MADE_HEADERS + payload) as u16).to_be_bytes());
    headers[6..10].copy_from_slice(&[0x40, 0, 64, 6]);
    headers[12..24].copy_from_slice(ends);
    headers[24..28].copy_from_slice(&sequence.to_be_bytes());
    headers[28..32].copy_from_slice(&acknowledgement.to_be_bytes());
    headers[32..36].copy_from_slice(&[0x50, flags, 0xFF, 0xFF]);
    headers
}
