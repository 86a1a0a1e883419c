//! The IPv4 addresses that stand for those of IPv6, from 240.0.0.1 on in order of first sight.

use std::collections::HashMap;

use crate::error::Error;

const FIRST: u32 = 240 << 24;
const MOST: usize = (1 << 28) - 2;

#[derive(Default)]
pub struct StandIns {
    known: HashMap<[u8; 16], [u8; 4]>,
    new: Vec<([u8; 4], [u8; 16])>,
    has_class_e: bool,
}

impl StandIns {
    pub fn of(&mut self, address: [u8; 16]) -> Result<[u8; 4], Error> {
        if let Some(known) = self.known.get(&address) {
            return Ok(*known);
        }
        let stand_in = (FIRST + self.known.len() as u32 + 1).to_be_bytes();
        self.known.insert(address, stand_in);
        self.new.push((stand_in, address));
        self.check()?;
        Ok(stand_in)
    }

    /// The stand-in that was given out for an address.
    pub fn known(&self, address: &[u8; 16]) -> Option<[u8; 4]> {
        self.known.get(address).copied()
    }

    /// Fails if there is IPv6, since a capture that has addresses of 240.0.0.0/4 itself cannot have that too.
    pub fn meet_class_e(&mut self) -> Result<(), Error> {
        self.has_class_e = true;
        self.check()
    }

    /// Those that were given out since this was asked last, each with what it stands for.
    pub fn take_new(&mut self) -> Vec<([u8; 4], [u8; 16])> {
        std::mem::take(&mut self.new)
    }

    pub fn has_new(&self) -> bool {
        !self.new.is_empty()
    }

    fn check(&self) -> Result<(), Error> {
        if !self.known.is_empty() && self.has_class_e || self.known.len() > MOST {
            return Err(Error::refused("address-clash"));
        }
        Ok(())
    }
}
