//! A file of which a part is in view, for who reads it once more.

use std::fs::File;
use std::io::{self, ErrorKind};
use std::os::unix::fs::FileExt;

/// So many bytes are read at a time where what is asked for lies apart, and where one thing follows the other.
const LEAST_READ: usize = 1 << 12;
const MOST_READ: usize = 1 << 17;

/// Bytes of a file by their places, best asked for in rising order.
pub struct FileView {
    file: Option<File>,
    bytes: Vec<u8>,
    /// How many of these are in view, and where the first of them stands.
    filled: usize,
    begin: u64,
    most: usize,
}

impl FileView {
    pub fn new(file: File) -> FileView {
        FileView { file: Some(file), ..FileView::of_bytes(Vec::new()) }
    }

    /// A view of bytes that would stand in a file.
    pub fn of_bytes(bytes: Vec<u8>) -> FileView {
        FileView { file: None, filled: bytes.len(), bytes, begin: 0, most: LEAST_READ }
    }

    /// So many bytes from a place on; none where the file ends before that.
    #[inline]
    pub fn at(&mut self, place: u64, size: usize) -> io::Result<Option<&[u8]>> {
        if self.left(place) < Some(size) && !self.read(place, size)? {
            return Ok(None);
        }
        let from = place.wrapping_sub(self.begin) as usize;
        Ok(self.bytes.get(from..).and_then(|rest| rest.get(..size)))
    }

    /// What is in view from a place on.
    #[inline]
    pub fn rest(&self, place: u64) -> &[u8] {
        let left = self.left(place).unwrap_or(0);
        &self.bytes[self.filled - left..self.filled]
    }

    /// How many bytes are in view from a place on, if that is.
    #[inline]
    fn left(&self, place: u64) -> Option<usize> {
        self.filled.checked_sub(usize::try_from(place.wrapping_sub(self.begin)).ok()?)
    }

    /// Moves what is in view to this place, and answers whether so many bytes are there.
    #[inline(never)]
    fn read(&mut self, place: u64, size: usize) -> io::Result<bool> {
        let file = match &self.file {
            Some(file) => file,
            None => return Ok(false),
        };
        let from = place.wrapping_sub(self.begin);
        let follows = from <= self.filled as u64;
        self.most = if follows { MOST_READ.min(self.most * 2) } else { LEAST_READ };
        let rest = if follows { from as usize..self.filled } else { 0..0 };
        (self.begin, self.filled) = (place, rest.len());
        self.bytes.copy_within(rest, 0);
        let end = self.most.max(size);
        self.bytes.resize(self.bytes.len().max(end), 0);
        while self.filled < size {
            match file.read_at(&mut self.bytes[self.filled..end], place + self.filled as u64) {
                Ok(0) => return Ok(false),
                Ok(count) => self.filled += count,
                Err(error) if error.kind() == ErrorKind::Interrupted => {}
                Err(error) => return Err(error),
            }
        }
        Ok(true)
    }
}

#[cfg(test)]
mod tests {
    use super::*;
    use std::io::Write;

    const SIZE: usize = 600_000;

    fn byte_at(place: usize) -> u8 {
        (place / 251 + place) as u8
    }

    fn seen(view: &mut FileView, place: usize, size: usize) {
        let bytes = view.at(place as u64, size).expect("a file");
        let is_there = place + size <= SIZE;
        assert_eq!(bytes.map(<[u8]>::len), is_there.then_some(size), "{place} {size}");
        let is_right = |bytes: &[u8]| bytes.iter().enumerate().all(|(at, byte)| *byte == byte_at(place + at));
        assert!(bytes.map_or(true, is_right), "{place} {size}");
    }

    #[test]
    fn bytes_at_any_places() {
        let mut file = tempfile::tempfile().expect("a file");
        let all: Vec<u8> = (0..SIZE).map(byte_at).collect();
        file.write_all(&all).expect("room");
        let mut view = FileView::new(file);
        let (mut place, mut size) = (0, 1);
        while place < SIZE {
            seen(&mut view, place, size);
            (place, size) = (place + size, size * 7 % 10_007);
        }
        for place in [0, 4095, 4096, 300_000, 8, SIZE - 1, SIZE, SIZE + 1, 299_999, 17] {
            [1, 4096, 200_000].into_iter().for_each(|size| seen(&mut view, place, size));
        }
        assert!(view.bytes.len() <= 2 * 200_000, "{}", view.bytes.len());
    }

    /// What lies apart is not read with all between.
    #[test]
    fn little_is_read_of_what_lies_apart() {
        let mut file = tempfile::tempfile().expect("a file");
        file.write_all(&[7; SIZE]).expect("room");
        let mut view = FileView::new(file);
        (0..300).for_each(|at| drop(view.at(at * 1000, 1000)));
        assert!(view.filled > MOST_READ / 2);
        view.at(500_000, 100).expect("a file");
        assert_eq!(view.filled, LEAST_READ);
    }

    #[test]
    fn bytes_alone() {
        let mut view = FileView::of_bytes(vec![1, 2, 3]);
        assert_eq!(view.at(1, 2).ok().flatten(), Some(&[2, 3][..]));
        assert_eq!(view.at(1, 3).ok().flatten(), None);
    }
}
