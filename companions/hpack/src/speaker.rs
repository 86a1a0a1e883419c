//! Who says a block whose dynamic table is not known: requests and responses have other pseudo-fields, which come first
//! (RFC 9113, 8.3).

use crate::block::Block;
use crate::damage::Damage;
use crate::fields::Name;
use crate::table::FieldName;

/// So many fields are looked at.
const MOST_FIELDS: usize = 8;

#[derive(Clone, Copy, Debug, PartialEq, Eq)]
pub enum Speaker {
    /// The block has fields of a request.
    Client,
    /// It has a status.
    Server,
}

/// Who says the block that begins so; none where its first fields do not tell, as those of trailers, or as fields that
/// only the dynamic table knows.
pub fn speaker(block: &[u8]) -> Option<Speaker> {
    let mut block = Block::new(block);
    while matches!(block.first(), Some(0x20..=0x3f)) {
        block.integer(5).ok()?;
    }
    (0..MOST_FIELDS).find_map(|_| field(&mut block).unwrap_or(Some(None)))?
}

/// What a field tells: none where the next one may; some where it is known, or known that none tells.
fn field(block: &mut Block<'_>) -> Result<Option<Option<Speaker>>, Damage> {
    let bits = match block.first() {
        None | Some(0x20..=0x3f) => return Ok(Some(None)),
        Some(0x80..=0xff) => return block.integer(7).map(of_index),
        Some(0x40..=0x7f) => 6,
        Some(0x00..=0x1f) => 4,
    };
    let told = match block.integer(bits)? {
        0 => Some(of_name(block.string()?.name()?)),
        index => of_index(index),
    };
    if told.is_none() {
        block.string()?;
    }
    Ok(told)
}

/// By the static table (RFC 7541, appendix A).
fn of_index(index: u64) -> Option<Option<Speaker>> {
    match index {
        1..=7 => Some(Some(Speaker::Client)),
        8..=14 => Some(Some(Speaker::Server)),
        0 | 15..=61 => Some(None),
        _ => None,
    }
}

fn of_name(name: FieldName) -> Option<Speaker> {
    match name {
        FieldName::Wanted(Name::Method | Name::Path | Name::Authority | Name::Protocol) => Some(Speaker::Client),
        FieldName::Wanted(Name::Status) => Some(Speaker::Server),
        FieldName::Wanted(_) | FieldName::Other(_) => None,
    }
}

#[cfg(test)]
mod tests {
    use super::*;

    #[test]
    fn pseudo_fields_tell() {
        let blocks: [(&[u8], Option<Speaker>); 12] = [
            (b"\x82", Some(Speaker::Client)),
            (b"\x3f\xe1\x1f\x88", Some(Speaker::Server)),
            (b"\xbe\xbf\x87", Some(Speaker::Client)),
            (b"\xbe\x48\x03404", Some(Speaker::Server)),
            (b"\x7f\x00\x01a\x04\x02/a", Some(Speaker::Client)),
            (b"\x00\x07:method\x03GET", Some(Speaker::Client)),
            (b"\x00\x07:status\x03200", Some(Speaker::Server)),
            (b"\x00\x0bgrpc-status\x010\x82", None),
            (b"\x9f\x82", None),
            (b"\xbe\xbf", None),
            (b"", None),
            (b"\x7f\x00\x09a", None),
        ];
        for (block, wanted) in blocks {
            assert_eq!(speaker(block), wanted, "{block:?}");
        }
        assert_eq!(speaker(&[&[0xbe; MOST_FIELDS][..], b"\x82"].concat()), None);
    }
}
