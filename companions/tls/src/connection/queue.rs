//! Records that wait for keys, in the order in which they were completed.

use std::collections::VecDeque;

use captures::Arrival;

use crate::records::Header;

/// What waits, of both sides.
#[derive(Default)]
pub struct Queue {
    pub records: VecDeque<Waiting>,
    /// The numbers of each side's records that were not read yet. The first record in the queue has the number `first`.
    pub unread: [VecDeque<u64>; 2],
    first: u64,
    pub bytes: usize,
}

/// A record in its place, and its content once it is known.
pub struct Waiting {
    pub side: usize,
    pub arrival: Arrival,
    pub header: Header,
    pub body: Vec<u8>,
    size: usize,
    pub content: Option<Vec<u8>>,
}

impl Queue {
    pub fn add(&mut self, side: usize, arrival: Arrival, header: &Header, body: &[u8]) {
        self.unread[side].push_back(self.first + self.records.len() as u64);
        self.bytes += body.len();
        let (header, size, body) = (*header, body.len(), body.to_vec());
        self.records.push_back(Waiting { side, arrival, header, body, size, content: None });
    }

    pub fn get_mut(&mut self, number: u64) -> Option<&mut Waiting> {
        self.records.get_mut(usize::try_from(number.checked_sub(self.first)?).ok()?)
    }

    /// The first record, where it is read.
    pub fn take_read(&mut self) -> Option<Waiting> {
        self.records.front()?.content.as_ref()?;
        let first = self.records.pop_front()?;
        self.first += 1;
        self.bytes -= first.size;
        Some(first)
    }

    /// A side ends, and with it what of it was not read.
    pub fn end(&mut self, side: usize) {
        for number in std::mem::take(&mut self.unread[side]) {
            if let Some(waiting) = self.get_mut(number) {
                waiting.content = Some(Vec::new());
            }
        }
    }
}
