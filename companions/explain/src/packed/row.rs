//! Places with numbers, packed in a row.

use super::packer::Packer;
use super::unpacker::Unpacker;
use super::{IN_ROW, NOWHERE};
use crate::answer::At;

/// Places with numbers, in a row: each is put behind all others, and the first is taken.
#[derive(Debug)]
pub struct Row {
    bytes: Vec<u8>,
    /// Up to here they were taken.
    taken: usize,
    last_put: At,
    last_taken: At,
}

impl Default for Row {
    fn default() -> Row {
        Row { bytes: Vec::new(), taken: 0, last_put: NOWHERE, last_taken: NOWHERE }
    }
}

impl Row {
    pub fn push(&mut self, at: At, numbers: &[Option<u32>]) {
        let mut packer = Packer::new(&mut self.bytes, self.last_put);
        packer.with_bits::<IN_ROW>(|packer| {
            packer.at(Some(at));
            numbers.iter().for_each(|number| packer.small(*number));
        });
        self.last_put = packer.last;
    }

    pub fn take_first<const COUNT: usize>(&mut self) -> Option<(At, [Option<u32>; COUNT])> {
        let bytes = self.bytes.get(self.taken..).filter(|bytes| !bytes.is_empty())?;
        let mut unpacker = Unpacker::new(bytes, self.last_taken);
        unpacker.take_bits::<IN_ROW>();
        let at = unpacker.at().unwrap_or(NOWHERE);
        let numbers = [(); COUNT].map(|()| unpacker.option(Unpacker::small));
        (self.taken, self.last_taken) = (self.bytes.len() - unpacker.bytes.len(), unpacker.last);
        if self.taken * 2 > self.bytes.len() {
            self.bytes.drain(..self.taken);
            self.bytes.shrink_to(2 * self.bytes.len());
            self.taken = 0;
        }
        Some((at, numbers))
    }

    #[cfg(test)]
    pub fn len(&self) -> usize {
        self.bytes.len() - self.taken
    }

    #[cfg(test)]
    pub fn is_empty(&self) -> bool {
        self.len() == 0
    }
}
