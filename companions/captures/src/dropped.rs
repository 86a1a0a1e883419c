//! How many packets were dropped while a pcapng file was captured, as its Interface Statistics Blocks say.

use crate::bytes::Order;
use crate::pcapng::{options, MOST_INTERFACES, SECTION_HEADER};

const STATISTICS: u32 = 5;
/// By the interface, and by the system (isb_ifdrop, isb_osdrop).
const DROPPED: [u16; 2] = [5, 7];
/// The interface and a time stand before the options.
const HEAD: usize = 12;

/// Counters go on from block to block: of each interface of a section the last block counts.
#[derive(Default)]
pub struct Dropped {
    before: u64,
    now: Vec<u64>,
}

impl Dropped {
    pub fn take(&mut self, kind: u32, order: Order, body: &[u8]) {
        match kind {
            SECTION_HEADER => *self = Dropped { before: self.packets(), now: Vec::new() },
            STATISTICS if body.len() >= HEAD => {
                let interface = order.u32(body, 0) as usize;
                let numbers =
                    options(order, &body[HEAD..]).filter(|(_, code, value)| DROPPED.contains(code) && value.len() == 8);
                let numbers = numbers.map(|(_, _, value)| u64::try_from(order.i64(value, 0)).unwrap_or(0));
                if interface < MOST_INTERFACES {
                    self.now.resize(self.now.len().max(interface + 1), 0);
                    self.now[interface] = numbers.fold(0, u64::saturating_add);
                }
            }
            _ => {}
        }
    }

    pub fn packets(&self) -> u64 {
        self.now.iter().fold(self.before, |sum, number| sum.saturating_add(*number))
    }
}

#[cfg(test)]
mod tests {
    use super::*;

    #[test]
    fn the_last_block_of_an_interface_counts() {
        let block = |interface: u32, numbers: &[(u16, u64)]| {
            let mut body = [&interface.to_le_bytes()[..], &[0; 8]].concat();
            for (code, number) in numbers {
                body.extend_from_slice(&[&code.to_le_bytes()[..], &[8, 0], &number.to_le_bytes()].concat());
            }
            body
        };
        let mut dropped = Dropped::default();
        let mut take = |kind, body: &[u8]| {
            dropped.take(kind, Order::Little, body);
            dropped.packets()
        };
        assert_eq!(take(STATISTICS, &block(1, &[(4, 9), (5, 3), (7, 2)])), 5);
        assert_eq!(take(STATISTICS, &block(1, &[(5, 4)])), 4);
        assert_eq!(take(STATISTICS, &block(0, &[(5, 1)])), 5);
        assert_eq!(take(SECTION_HEADER, &[]), 5);
        assert_eq!(take(STATISTICS, &block(0, &[(5, 10)])), 15);
        assert_eq!(take(STATISTICS, &block(1 << 16, &[(5, 10)])), 15);
        assert_eq!(take(STATISTICS, &block(0, &[(5, u64::MAX)])), 5, "no number of packets");
        assert_eq!(take(STATISTICS, &[0; 11]), 5);
    }
}
