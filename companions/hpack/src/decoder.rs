//! Blocks of one side, in their order (RFC 7541, 3 and 6).

use crate::block::Block;
use crate::damage::{Damage, LARGEST_TABLE, LONGEST_BLOCK, LONGEST_LIST};
use crate::fields::Fields;
use crate::table::{Entry, FieldName, Table, FIRST_CAPACITY};

/// A run of so many bytes may be an integer without an end.
const ENDLESS: usize = 8192;

/// What one side's field blocks say, as long as all before could be read.
pub struct Decoder {
    pub(crate) table: Table,
    /// The largest table that the other side has allowed.
    allowed: u32,
    damage: Option<Damage>,
    room: Vec<u8>,
}

impl Decoder {
    pub fn new() -> Decoder {
        Decoder { table: Table::new(), allowed: FIRST_CAPACITY, damage: None, room: Vec::new() }
    }

    /// The other side's settings allow a table of this size; one that was allowed before may still be in use.
    pub fn allow_table(&mut self, size: u32) {
        self.allowed = self.allowed.max(size);
    }

    /// The fields of the next block; or why it cannot be read, which holds for all that follow.
    pub fn decode(&mut self, block: &[u8]) -> Result<Fields, Damage> {
        if let Some(damage) = self.damage {
            return Err(damage);
        }
        let decoded = self.fields_of(block);
        self.damage = decoded.as_ref().err().copied();
        decoded
    }

    /// How many entries the dynamic table has, and their size.
    pub fn table(&self) -> (usize, usize) {
        (self.table.count(), self.table.size())
    }

    fn fields_of(&mut self, octets: &[u8]) -> Result<Fields, Damage> {
        if octets.len() > LONGEST_BLOCK || may_be_endless(octets) {
            return Err(Damage::TooLong);
        }
        let mut block = Block::new(octets);
        while matches!(block.first(), Some(0x20..=0x3f)) {
            self.resize(block.integer(5)?)?;
        }
        let mut fields = Fields::default();
        let mut length = 0;
        while let Some(first) = block.first() {
            length += self.field(first, &mut block, &mut fields)?;
            if length > LONGEST_LIST {
                return Err(Damage::LongList);
            }
        }
        Ok(fields)
    }

    /// Reads a field, and answers its size.
    fn field(&mut self, first: u8, block: &mut Block, fields: &mut Fields) -> Result<usize, Damage> {
        match first {
            // Indexed (6.1).
            0x80..=0xff => {
                let found = self.table.get(block.integer(7)?)?;
                found.tell(fields);
                Ok(found.size())
            }
            // A literal that the table takes (6.2.1).
            0x40..=0x7f => {
                let entry = self.literal(block, 6)?;
                entry.tell(fields);
                let size = entry.size();
                self.table.add(entry);
                Ok(size)
            }
            // The table's size changes only where a block begins (4.2).
            0x20..=0x3f => Err(Damage::Malformed),
            // A literal that no table takes (6.2.2, 6.2.3).
            0x00..=0x1f => {
                let entry = self.literal(block, 4)?;
                entry.tell(fields);
                Ok(entry.size())
            }
        }
    }

    fn literal(&mut self, block: &mut Block, bits: u32) -> Result<Entry, Damage> {
        let name = match block.integer(bits)? {
            0 => block.string()?.name()?,
            index => self.table.get(index)?.name(),
        };
        let text = block.string()?;
        let (value, length) = match name {
            FieldName::Other(_) => (None, text.length()?),
            FieldName::Wanted(_) => {
                let (value, length) = text.value(&mut self.room)?;
                (Some(value), length)
            }
        };
        Ok(Entry { name, value_length: length as u32, value })
    }

    /// The encoder chooses how much its table may hold (6.3).
    fn resize(&mut self, capacity: u64) -> Result<(), Damage> {
        if capacity > u64::from(self.allowed.min(LARGEST_TABLE)) {
            return Err(if self.allowed > LARGEST_TABLE { Damage::LargeTable } else { Damage::TableSize });
        }
        self.table.resize(capacity as usize);
        Ok(())
    }
}

impl Default for Decoder {
    fn default() -> Decoder {
        Decoder::new()
    }
}

fn may_be_endless(block: &[u8]) -> bool {
    block.len() >= ENDLESS && block.split(|octet| *octet < 0x80).any(|run| run.len() >= ENDLESS)
}

#[cfg(test)]
mod tests {
    use super::*;
    use crate::{Name, LONGEST_VALUE};

    fn damage_of(block: &[u8]) -> String {
        let mut decoder = Decoder::new();
        let damage = decoder.decode(block).expect_err("damage");
        assert_eq!(decoder.decode(b"\x82").err(), Some(damage));
        damage.to_string()
    }

    /// A literal of one name with a value of so many bytes, which the table takes if the first byte says so.
    fn literal(first: u8, name: u8, length: usize) -> Vec<u8> {
        let more = [length - 127, (length - 127) >> 7, (length - 127) >> 14];
        let length = [0x7f, more[0] as u8 | 0x80, more[1] as u8 | 0x80, more[2] as u8];
        [&[first | name][..], &length, &vec![b'v'; more[0] + 127]].concat()
    }

    #[test]
    fn damage() {
        let malformed = "a damaged field block (HPACKDecodingError)";
        let blocks: [&[u8]; 10] = [
            b"\xff",
            b"\xff\x80",
            b"\x7f",
            b"\x41",
            b"\x41\x01",
            b"\x40\x01a",
            b"\x40\x81\xff\x00",
            b"\x41\x81\xff",
            b"\x82\x20",
            b"\x00\xff\xff\xff\xff\xff\xff\xff\xff\xff\xff\x7fa",
        ];
        for block in blocks {
            assert_eq!(damage_of(block), malformed, "{block:?}");
        }
        for block in [&b"\x80"[..], b"\xbe", b"\x7e\x00", b"\xff\xff\xff\xff\xff\xff\xff\xff\xff\xff\x7f"] {
            assert_eq!(damage_of(block), "a damaged field block (InvalidTableIndex)", "{block:?}");
        }
        assert_eq!(damage_of(b"\x3f\xe2\x1f"), "a damaged field block (InvalidTableSizeError)");
        assert_eq!(damage_of(&literal(0, 4, LONGEST_LIST - 36)), "a damaged field block (OversizedHeaderListError)");
        assert_eq!(damage_of(&vec![0x82; LONGEST_BLOCK + 1]), "a field block too long to be read");
        assert_eq!(damage_of(&[0xff; ENDLESS]), "a field block too long to be read");
        assert_eq!(damage_of(&[0xff; ENDLESS - 1]), malformed);
    }

    #[test]
    fn longest() {
        let fields = Decoder::new().decode(&literal(0, 4, LONGEST_LIST - 37)).expect("fields");
        assert_eq!(fields.value(Name::Path).map(<[u8]>::len), Some(LONGEST_VALUE));
        let many = |count| Decoder::new().decode(&b"\x00\x01a\x00".repeat(count)).err();
        assert_eq!((many(LONGEST_LIST / 33), many(LONGEST_LIST / 33 + 1)), (None, Some(Damage::LongList)));
    }

    #[test]
    fn tables() {
        let changed = |allowed, block: &[u8]| {
            let mut decoder = Decoder::new();
            decoder.allow_table(allowed);
            decoder.decode(block).err()
        };
        let (largest, larger) = (b"\x3f\xe1\xff\x03", b"\x3f\xe2\xff\x03");
        assert_eq!(changed(LARGEST_TABLE, largest), None);
        assert_eq!(changed(LARGEST_TABLE, larger), Some(Damage::TableSize));
        assert_eq!(changed(LARGEST_TABLE + 1, larger), Some(Damage::LargeTable));
        assert_eq!(Damage::LargeTable.to_string(), "a table of more than 65,536 bytes");
        assert_eq!(changed(0, b"\x3f\xe1\x1f"), None, "what was allowed at first may be in use");
    }

    /// The entry that a literal refers to may leave the table for it.
    #[test]
    fn evicted() {
        let mut decoder = Decoder::new();
        decoder.decode(&literal(0x40, 4, 4059)).expect("fields");
        assert_eq!(decoder.table(), (1, 4096));
        let fields = decoder.decode(b"\xbe\x7e\x02/a\xbe").expect("fields");
        assert_eq!(fields.value(Name::Path).map(<[u8]>::len), Some(4059), "the first counts");
        assert_eq!(decoder.table(), (1, 39));
        decoder.decode(&literal(0x40, 4, 4060)).expect("fields");
        assert_eq!(decoder.table(), (0, 0));
    }

    #[test]
    fn names() {
        for name in Name::ALL {
            let text = name.text().as_bytes();
            let block = [&[0, text.len() as u8][..], text, b"\x01v"].concat();
            let mut fields = Decoder::new().decode(&block).expect("fields");
            assert_eq!(fields.value(name), Some(&b"v"[..]));
            assert_eq!(fields.take(name).as_deref(), Some(&b"v"[..]));
        }
        let longest = Name::ALL.map(|name| name.text().len()).into_iter().max();
        assert_eq!(longest, Some(Name::MOST_BYTES));
    }
}
