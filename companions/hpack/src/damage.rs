//! Why field blocks cannot be read, and the bounds up to which they are.

use std::error::Error;
use std::fmt;

/// A block has no more bytes than this, and its fields have no more together: a few bytes may stand for many.
pub const LONGEST_BLOCK: usize = 1 << 20;
pub const LONGEST_LIST: usize = 1 << 20;
/// A larger dynamic table is not followed.
pub const LARGEST_TABLE: u32 = 1 << 16;

/// Why nothing of a side is known from here on.
#[derive(Clone, Copy, Debug, PartialEq, Eq)]
pub enum Damage {
    /// The block is too long, or has what may be an integer that goes on for thousands of bytes.
    TooLong,
    /// The encoder makes its table larger than is followed, as the other side allows it to.
    LargeTable,
    /// The encoder makes its table larger than the other side allows (RFC 7541, 6.3).
    TableSize,
    /// A field refers to an entry that no table has (2.3.3).
    NoEntry,
    /// The fields are too many, or too long (RFC 9113, 6.5.2).
    LongList,
    /// An integer or a string does not end within the block (5.1, 5.2), a string in Huffman code is none, or the
    /// table's size changes after the first field (4.2).
    Malformed,
}

impl fmt::Display for Damage {
    /// Damage of a block has the name that python-hpack gave it.
    fn fmt(&self, to: &mut fmt::Formatter) -> fmt::Result {
        let name = match self {
            Damage::TooLong => return to.write_str("a field block too long to be read"),
            Damage::LargeTable => return to.write_str("a table of more than 65,536 bytes"),
            Damage::TableSize => "InvalidTableSizeError",
            Damage::NoEntry => "InvalidTableIndex",
            Damage::LongList => "OversizedHeaderListError",
            Damage::Malformed => "HPACKDecodingError",
        };
        write!(to, "a damaged field block ({name})")
    }
}

impl Error for Damage {}
