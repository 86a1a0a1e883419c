//! Records of a file once more, by where they stand.

use std::ffi::OsStr;
use std::fs::File;
use std::io;

use super::{Head, Header, RECORD_HEADER_LENGTH};
use crate::file_view::FileView;
use crate::packets::{Packet, MOST_CAPTURED};

/// A file whose header is known.
pub struct Records {
    view: FileView,
    header: Header,
}

impl Records {
    pub fn open(path: &OsStr, header: Header) -> io::Result<Records> {
        File::open(path).map(|file| Records::of(file, header))
    }

    /// The records of a file that is open, whose own place stays.
    pub fn of(file: File, header: Header) -> Records {
        Records { view: FileView::new(file), header }
    }

    /// The packet of the record that begins at a place, and where that ends; none where the file ends before that. The
    /// whole record is in view then.
    #[inline]
    pub fn at(&mut self, place: u64) -> io::Result<Option<(Packet<'_>, u64)>> {
        let header = self.header;
        let front = self.view.at(place, RECORD_HEADER_LENGTH)?.and_then(|front| front.try_into().ok());
        let captured = match front.map(|front| header.head_of(front).captured) {
            Some(captured) if captured <= MOST_CAPTURED => captured,
            _ => return Ok(None),
        };
        let record = self.view.at(place, RECORD_HEADER_LENGTH + captured)?;
        let found = record.and_then(|record| packet_in(&header, record));
        Ok(found.map(|(packet, size)| (packet, place + size as u64)))
    }

    /// What is in view from a place on, to be read by [`Records::packet_in`].
    #[inline]
    pub fn rest(&self, place: u64) -> &[u8] {
        self.view.rest(place)
    }

    /// The packet of the record with which these bytes begin, and how many bytes that has, if it is whole.
    #[inline(always)]
    pub fn packet_in<'a>(&self, bytes: &'a [u8]) -> Option<(Packet<'a>, usize)> {
        packet_in(&self.header, bytes)
    }
}

#[inline(always)]
fn packet_in<'a>(header: &Header, bytes: &'a [u8]) -> Option<(Packet<'a>, usize)> {
    let Head { nanos, captured, original } = header.head_of(bytes.get(..RECORD_HEADER_LENGTH)?.try_into().ok()?);
    let size = RECORD_HEADER_LENGTH + captured;
    let data = bytes.get(RECORD_HEADER_LENGTH..size).filter(|_| captured <= MOST_CAPTURED)?;
    Some((Packet { nanos, link: Some(header.link), data, original }, size))
}
