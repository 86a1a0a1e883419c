//! Where an entry stands: its record, its packet and its time, beside those of the entry before; and numbers in bytes.

use super::Came;
use crate::answer::Nanos;

/// The record, the packet and the time of an entry.
#[derive(Clone, Copy, Debug, Default)]
pub struct Place {
    pub record: u64,
    pub packet: u64,
    pub time: Nanos,
}

impl Place {
    pub fn of(came: &Came) -> Place {
        Place { record: came.record, packet: came.at.packet, time: came.at.time }
    }

    /// By how much it is above another one, if that is little.
    pub fn above(&self, before: &Place) -> Option<(u16, u16, u32)> {
        let record = self.record.wrapping_sub(before.record).try_into().ok()?;
        let packet = self.packet.wrapping_sub(before.packet).try_into().ok()?;
        let time = self.time.wrapping_sub(before.time).try_into().ok()?;
        Some((record, packet, time))
    }
}

pub fn number_at(octets: &[u8], index: usize) -> u64 {
    let eight = octets.get(8 * index..).and_then(|rest| rest.get(..8)).and_then(|eight| eight.try_into().ok());
    eight.map_or(0, u64::from_le_bytes)
}

pub fn four_at(octets: &[u8], at: usize) -> u32 {
    octets.get(at..).and_then(|rest| rest.get(..4)).and_then(|four| four.try_into().ok()).map_or(0, u32::from_le_bytes)
}

/// Takes so many bytes from the end.
pub fn taken_from_end<'a>(octets: &mut &'a [u8], count: usize) -> &'a [u8] {
    let (front, end) = octets.split_at(octets.len().saturating_sub(count));
    *octets = front;
    end
}
