//! The dynamic table (RFC 7541, 2.3.2 and 4), and the one space of indices that both tables share (2.3.3).

use std::collections::VecDeque;
use std::rc::Rc;

use crate::damage::Damage;
use crate::fields::{Fields, Name, Value};
use crate::static_table::{Row, ROWS};

/// Each entry counts so many bytes more than its name and its value have (4.1).
const OVERHEAD: usize = 32;
/// What a table may hold before anybody says so (RFC 9113, 6.5.2).
pub const FIRST_CAPACITY: u32 = 4096;

/// A name, or the length of one that is not wanted.
#[derive(Clone, Copy, Debug, PartialEq, Eq)]
pub enum FieldName {
    Wanted(Name),
    Other(u32),
}

impl FieldName {
    fn length(self) -> usize {
        match self {
            FieldName::Wanted(name) => name.text().len(),
            FieldName::Other(length) => length as usize,
        }
    }
}

/// A field that a block spells out. It has the bytes of its value if its name is wanted.
#[derive(Debug)]
pub struct Entry {
    pub name: FieldName,
    pub value_length: u32,
    pub value: Option<Rc<[u8]>>,
}

impl Entry {
    /// The size of an entry (4.1).
    pub fn size(&self) -> usize {
        self.name.length() + self.value_length as usize + OVERHEAD
    }

    pub fn tell(&self, fields: &mut Fields) {
        if let (FieldName::Wanted(name), Some(value)) = (self.name, &self.value) {
            fields.first(name, || Value::shared(value.clone()));
        }
    }
}

/// What an index stands for.
pub enum Indexed<'a> {
    Static(&'static Row),
    Dynamic(&'a Entry),
}

impl Indexed<'_> {
    pub fn name(&self) -> FieldName {
        match self {
            Indexed::Static(row) => row.name,
            Indexed::Dynamic(entry) => entry.name,
        }
    }

    pub fn size(&self) -> usize {
        match self {
            Indexed::Static(row) => row.name.length() + row.value.len() + OVERHEAD,
            Indexed::Dynamic(entry) => entry.size(),
        }
    }

    pub fn tell(&self, fields: &mut Fields) {
        match self {
            Indexed::Dynamic(entry) => entry.tell(fields),
            Indexed::Static(row) => {
                if let FieldName::Wanted(name) = row.name {
                    fields.first(name, || Value::known(row.value.as_bytes()));
                }
            }
        }
    }
}

#[derive(Debug)]
pub struct Table {
    /// The newest last.
    entries: VecDeque<Entry>,
    size: usize,
    capacity: usize,
}

impl Table {
    pub fn new() -> Table {
        Table { entries: VecDeque::new(), size: 0, capacity: FIRST_CAPACITY as usize }
    }

    pub fn count(&self) -> usize {
        self.entries.len()
    }

    pub fn size(&self) -> usize {
        self.size
    }

    /// What an index stands for: entries are counted from 1, and dynamic ones follow the static ones, the newest first.
    pub fn get(&self, index: u64) -> Result<Indexed<'_>, Damage> {
        let place = usize::try_from(index).ok().and_then(|index| index.checked_sub(1)).ok_or(Damage::NoEntry)?;
        if let Some(row) = ROWS.get(place) {
            return Ok(Indexed::Static(row));
        }
        let from_the_end = place - ROWS.len() + 1;
        let entry = self.entries.len().checked_sub(from_the_end).and_then(|place| self.entries.get(place));
        entry.map(Indexed::Dynamic).ok_or(Damage::NoEntry)
    }

    /// Adds an entry (4.4). One that is larger than the table only empties it.
    pub fn add(&mut self, entry: Entry) {
        let size = entry.size();
        if size > self.capacity {
            self.shrink_to(0);
            return;
        }
        self.shrink_to(self.capacity - size);
        self.size += size;
        self.entries.push_back(entry);
    }

    /// Changes how much the table may hold (4.3).
    pub fn resize(&mut self, capacity: usize) {
        self.capacity = capacity;
        self.shrink_to(capacity);
    }

    /// Takes out the oldest entries until the others have so many bytes at most.
    fn shrink_to(&mut self, most: usize) {
        while self.size > most {
            self.size -= self.entries.pop_front().map_or(self.size, |oldest| oldest.size());
        }
    }
}
