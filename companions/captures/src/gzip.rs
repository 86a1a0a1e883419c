//! Unpacks gzip (RFC 1952), all of its members. It tells a file that is damaged from one that is cut, of which all that
//! came before counts; and it passes over what stands behind the last member.

use std::io::{ErrorKind, Read};

use flate2::{Crc, Decompress, FlushDecompress, Status};

use crate::error::Error;
use crate::source::Raw;

const BUFFER: usize = 1 << 16;
const MAGIC: [u8; 2] = [0x1f, 0x8b];
const DEFLATE: u8 = 8;
/// Flags of a member's header.
const HEADER_CRC: u8 = 2;
const EXTRA: u8 = 4;
const NAME: u8 = 8;
const COMMENT: u8 = 16;

#[derive(Clone, Copy, PartialEq)]
enum Place {
    Header,
    Body,
    Trailer,
    End,
}

pub struct Gzip {
    raw: Raw,
    input: Vec<u8>,
    at: usize,
    inflate: Decompress,
    crc: Crc,
    place: Place,
    is_first: bool,
    is_cut: bool,
    has_bytes_behind: bool,
}

/// What ends a member before its end.
enum Early {
    Cut,
    Failed(Error),
}

impl From<Error> for Early {
    fn from(error: Error) -> Early {
        Early::Failed(error)
    }
}

fn damaged<T>() -> Result<T, Early> {
    Err(Early::Failed(Error::refused("bad-gzip")))
}

impl Gzip {
    pub fn new(raw: Raw) -> Gzip {
        Gzip {
            raw,
            input: Vec::new(),
            at: 0,
            inflate: Decompress::new(false),
            crc: Crc::new(),
            place: Place::Header,
            is_first: true,
            is_cut: false,
            has_bytes_behind: false,
        }
    }

    pub fn is_cut(&self) -> bool {
        self.is_cut
    }

    pub fn has_bytes_behind(&self) -> bool {
        self.has_bytes_behind
    }

    pub fn read(&mut self, room: &mut [u8]) -> Result<usize, Error> {
        match self.read_part(room) {
            Ok(got) => Ok(got),
            Err(Early::Failed(error)) => Err(error),
            Err(Early::Cut) => {
                self.is_cut = true;
                self.place = Place::End;
                Ok(0)
            }
        }
    }

    fn read_part(&mut self, room: &mut [u8]) -> Result<usize, Early> {
        loop {
            match self.place {
                Place::Header => self.place = if self.begins_member()? { Place::Body } else { Place::End },
                Place::Body => {
                    let got = self.inflate_some(room)?;
                    if got > 0 {
                        return Ok(got);
                    }
                }
                Place::Trailer => {
                    self.check_trailer()?;
                    self.place = Place::Header;
                }
                Place::End => return Ok(0),
            }
        }
    }

    /// Reads on where all input is used up; false at the end.
    fn has_input(&mut self) -> Result<bool, Error> {
        while self.at == self.input.len() {
            self.input.resize(BUFFER, 0);
            let got = self.raw.read(&mut self.input);
            self.input.truncate(*got.as_ref().unwrap_or(&0));
            self.at = 0;
            match got {
                Err(error) if error.kind() == ErrorKind::Interrupted => {}
                Err(error) => return Err(Error::Io(error)),
                Ok(got) => return Ok(got > 0),
            }
        }
        Ok(true)
    }

    fn byte(&mut self) -> Result<u8, Early> {
        if !self.has_input()? {
            return Err(Early::Cut);
        }
        self.at += 1;
        Ok(self.input[self.at - 1])
    }

    fn bytes<const N: usize>(&mut self) -> Result<[u8; N], Early> {
        let mut found = [0; N];
        for byte in &mut found {
            *byte = self.byte()?;
        }
        Ok(found)
    }

    /// Reads the header of a member, if there is one. Zeros may stand between members, as tapes have them.
    fn begins_member(&mut self) -> Result<bool, Early> {
        if !std::mem::take(&mut self.is_first) {
            while self.has_input()? && self.input[self.at] == 0 {
                self.at += 1;
            }
            if !self.has_input()? {
                return Ok(false);
            }
            if self.input[self.at] != MAGIC[0] {
                self.has_bytes_behind = true;
                return Ok(false);
            }
        }
        if self.bytes::<2>()? != MAGIC {
            self.has_bytes_behind = true;
            return Ok(false);
        }
        self.read_header()?;
        self.inflate.reset(false);
        self.crc.reset();
        Ok(true)
    }

    fn read_header(&mut self) -> Result<(), Early> {
        let [method, flags, ..] = self.bytes::<8>()?;
        if method != DEFLATE {
            return damaged();
        }
        if flags & EXTRA != 0 {
            for _ in 0..u16::from_le_bytes(self.bytes()?) {
                self.byte()?;
            }
        }
        for flag in [NAME, COMMENT] {
            while flags & flag != 0 && self.byte()? != 0 {}
        }
        if flags & HEADER_CRC != 0 {
            self.bytes::<2>()?;
        }
        Ok(())
    }

    fn inflate_some(&mut self, room: &mut [u8]) -> Result<usize, Early> {
        let is_at_end = !self.has_input()?;
        let (before_in, before_out) = (self.inflate.total_in(), self.inflate.total_out());
        let status = self.inflate.decompress(&self.input[self.at..], room, FlushDecompress::None);
        let used = (self.inflate.total_in() - before_in) as usize;
        let made = (self.inflate.total_out() - before_out) as usize;
        self.at += used;
        self.crc.update(&room[..made]);
        match status {
            Ok(Status::StreamEnd) => self.place = Place::Trailer,
            Ok(_) if made == 0 && is_at_end => return Err(Early::Cut),
            Ok(Status::Ok) => {}
            Ok(Status::BufError) if used > 0 || made > 0 || is_at_end => {}
            Ok(Status::BufError) | Err(_) => return damaged(),
        }
        Ok(made)
    }

    /// Checksum and length of what the member held (RFC 1952, 2.3.1).
    fn check_trailer(&mut self) -> Result<(), Early> {
        let (checksum, length) = (u32::from_le_bytes(self.bytes()?), u32::from_le_bytes(self.bytes()?));
        if checksum == self.crc.sum() && length == self.crc.amount() {
            Ok(())
        } else {
            damaged()
        }
    }
}
