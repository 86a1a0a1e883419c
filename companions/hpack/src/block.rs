//! Integers and strings of a block (RFC 7541, 5).

use std::rc::Rc;

use crate::damage::Damage;
use crate::fields::{Name, LONGEST_VALUE};
use crate::huffman;
use crate::table::FieldName;

/// What is left of a block.
pub struct Block<'a> {
    rest: &'a [u8],
}

impl<'a> Block<'a> {
    pub fn new(octets: &'a [u8]) -> Block<'a> {
        Block { rest: octets }
    }

    /// The byte that comes next.
    pub fn first(&self) -> Option<u8> {
        self.rest.first().copied()
    }

    /// An integer in the last bits of the next byte, and those behind it (5.1). One that is too large for 64 bits is
    /// the largest: no place, length or size is as large.
    pub fn integer(&mut self, bits: u32) -> Result<u64, Damage> {
        let mut octets = self.rest.iter();
        let most = u64::MAX >> (64 - bits);
        let mut number = u64::from(*octets.next().ok_or(Damage::Malformed)?) & most;
        let mut shift = 0;
        let mut goes_on = number == most;
        while goes_on {
            let octet = *octets.next().ok_or(Damage::Malformed)?;
            number = number.saturating_add(shifted(octet & 0x7f, shift));
            shift += 7;
            goes_on = octet >= 0x80;
        }
        self.rest = octets.as_slice();
        Ok(number)
    }

    /// A string, which is not decoded yet (5.2).
    pub fn string(&mut self) -> Result<Text<'a>, Damage> {
        let is_huffman = self.first().ok_or(Damage::Malformed)? >= 0x80;
        let length = usize::try_from(self.integer(7)?).map_err(|_| Damage::Malformed)?;
        let octets = self.rest.get(..length).ok_or(Damage::Malformed)?;
        self.rest = &self.rest[length..];
        Ok(Text { octets, is_huffman })
    }
}

fn shifted(bits: u8, shift: u32) -> u64 {
    match shift {
        0..=56 => u64::from(bits) << shift,
        _ if bits == 0 => 0,
        _ => u64::MAX,
    }
}

/// A string as it stands in a block.
pub struct Text<'a> {
    octets: &'a [u8],
    is_huffman: bool,
}

impl Text<'_> {
    /// How many bytes it stands for.
    pub fn length(&self) -> Result<usize, Damage> {
        if self.is_huffman {
            huffman::decode(self.octets, &mut []).ok_or(Damage::Malformed)
        } else {
            Ok(self.octets.len())
        }
    }

    pub fn name(&self) -> Result<FieldName, Damage> {
        let mut decoded = [0; Name::MOST_BYTES + 2];
        let mut octets = self.octets;
        let mut length = octets.len();
        if self.is_huffman {
            length = huffman::decode(octets, &mut decoded).ok_or(Damage::Malformed)?;
            octets = &decoded[..length.min(decoded.len())];
        }
        Ok(Name::of(octets).map_or(FieldName::Other(length as u32), FieldName::Wanted))
    }

    /// As much as is kept of a value, and how many bytes it has. Room is used, and made where there is not enough.
    pub fn value(&self, room: &mut Vec<u8>) -> Result<(Rc<[u8]>, usize), Damage> {
        if !self.is_huffman {
            return Ok((Rc::from(&self.octets[..self.octets.len().min(LONGEST_VALUE)]), self.octets.len()));
        }
        let most = huffman::most_decoded(self.octets.len()).min(LONGEST_VALUE + 2);
        if room.len() < most {
            room.resize(most, 0);
        }
        let length = huffman::decode(self.octets, room).ok_or(Damage::Malformed)?;
        Ok((Rc::from(&room[..length.min(LONGEST_VALUE)]), length))
    }
}
