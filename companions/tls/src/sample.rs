//! Which of the records that wait are tried, and what they show of the version.

use crate::records::{front, Front, Header, ALERT, APPLICATION_DATA, HANDSHAKE, HEADER_LENGTH};

/// A record of TLS 1.3 that is a key update and no more: message, type and tag of 16 or 8 bytes (RFC 8446, 4.6.3).
const KEY_UPDATES: [usize; 2] = [22, 14];
/// An alert in the clear.
const ALERT_LENGTH: usize = 2;
const EXPLICIT_NONCE_LENGTH: usize = 8;

/// A record, as it is encrypted.
#[derive(Clone, Copy, Debug, PartialEq, Eq)]
pub struct Sealed<'a> {
    pub header: Header,
    pub body: &'a [u8],
}

impl Sealed<'_> {
    /// How long the record is, with its header.
    pub fn length(&self) -> usize {
        HEADER_LENGTH + self.body.len()
    }
}

/// Records of a side that are tried.
#[derive(Clone, Copy, Debug)]
pub struct Sample<'a> {
    pub first: Sealed<'a>,
    /// The shortest, and how many stand before it.
    pub record: Sealed<'a>,
    pub index: u64,
    /// A neighbour under the same keys, and how much its number is above the record's; before it, that is 2^64 - 1.
    pub beside: Option<(Sealed<'a>, u64)>,
}

/// The whole records at the front of some bytes.
pub fn sealed_in(mut bytes: &[u8]) -> Vec<Sealed<'_>> {
    let mut found = Vec::new();
    while let Front::Record(header, body) = front(bytes) {
        found.push(Sealed { header, body });
        bytes = &bytes[HEADER_LENGTH + body.len()..];
    }
    found
}

impl<'a> Sample<'a> {
    /// A sample of records that follow each other. A tag costs as much as the record is long, and after a key update
    /// keys are others: so of all pairs that have no update first, the one with the shortest record is taken.
    pub fn of(records: &[Sealed<'a>]) -> Option<Sample<'a>> {
        let end = records.iter().position(|record| record.header[0] != APPLICATION_DATA);
        let records = &records[..end.unwrap_or(records.len())];
        let length = |index: usize| records[index].body.len();
        let pairs = (1..records.len()).filter(|&later| !KEY_UPDATES.contains(&length(later - 1)));
        let best = pairs.min_by_key(|&later| length(later).min(length(later - 1)));
        let (index, beside) = match best {
            Some(later) if length(later) < length(later - 1) => (later, Some((records[later - 1], u64::MAX))),
            Some(later) => (later - 1, Some((records[later], 1))),
            None => ((0..records.len()).min_by_key(|&index| length(index))?, None),
        };
        Some(Sample { first: records[0], record: records[index], index: index as u64, beside })
    }
}

/// Whether records that follow each other are of TLS 1.2 for sure: types show that TLS 1.3 hides (RFC 8446, 5.2), or
/// all begin with a nonce that counts up by one, as GCM and CCM have it there (RFC 5288, 3; RFC 6655, 3). Without these
/// signs it may be either version.
pub fn is_tls_1_2(records: &[Sealed<'_>]) -> bool {
    let shows = |record: &Sealed<'_>| matches!(record.header[0], ALERT | HANDSHAKE) && record.body.len() > ALERT_LENGTH;
    if records.iter().any(shows) {
        return true;
    }
    let counts = |pair: &[Sealed<'_>]| {
        let next = explicit_nonce(&pair[0]).and_then(|nonce| nonce.checked_add(1));
        next.is_some() && next == explicit_nonce(&pair[1])
    };
    records.len() > 1 && records.windows(2).all(counts)
}

fn explicit_nonce(record: &Sealed<'_>) -> Option<u64> {
    let nonce = record.body.get(..EXPLICIT_NONCE_LENGTH).filter(|_| record.header[0] == APPLICATION_DATA)?;
    Some(u64::from_be_bytes(nonce.try_into().ok()?))
}

#[cfg(test)]
mod tests {
    use super::*;

    /// The lengths of record and neighbour, and how many records stand before the record.
    fn sampled(lengths: &[usize]) -> Option<(usize, Option<usize>, u64)> {
        let bodies: Vec<_> = lengths.iter().map(|length| vec![0; *length]).collect();
        let sealed = |body| Sealed { header: [APPLICATION_DATA, 3, 3, 0, 0], body };
        let records: Vec<_> = bodies.iter().map(|body| sealed(&body[..])).collect();
        let sample = Sample::of(&records)?;
        if let Some((beside, ahead)) = sample.beside {
            assert_eq!(beside, records[sample.index.wrapping_add(ahead) as usize]);
        }
        Some((sample.record.body.len(), sample.beside.map(|(beside, _)| beside.body.len()), sample.index))
    }

    #[test]
    fn the_shortest_with_a_neighbour_under_its_keys() {
        assert_eq!(sampled(&[]), None);
        assert_eq!(sampled(&[500]), Some((500, None, 0)));
        assert_eq!(sampled(&[500, 400, 100, 300]), Some((100, Some(400), 2)));
        assert_eq!(sampled(&[100, 400, 500]), Some((100, Some(400), 0)));
        assert_eq!(sampled(&[22, 25, 500]), Some((25, Some(500), 1)));
        assert_eq!(sampled(&[500, 22, 25]), Some((22, Some(500), 1)));
        assert_eq!(sampled(&[22, 25]), Some((22, None, 0)));
    }

    /// An alert in the clear is no record to try, and says nothing of the version.
    #[test]
    fn an_alert_in_the_clear() {
        let data = Sealed { header: [APPLICATION_DATA, 3, 3, 0, 50], body: &[7; 50] };
        let alert = Sealed { header: [ALERT, 3, 3, 0, 2], body: &[2, 40] };
        assert_eq!(Sample::of(&[data, alert]).map(|sample| (sample.record, sample.beside)), Some((data, None)));
        assert!(!is_tls_1_2(&[data, alert]));
        assert!(is_tls_1_2(&[data, Sealed { body: &[7; 18], ..alert }]));
    }
}
