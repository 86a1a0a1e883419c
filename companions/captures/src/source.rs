//! Files of captures, as they stand or compressed by gzip (RFC 1952), zstd (RFC 8878), xz or bzip2, and standard input.

use std::ffi::OsStr;
use std::fs::{self, File};
use std::io::{self, BufReader, Chain, Cursor, Read};

use bzip2::read::MultiBzDecoder;
use xz2::read::XzDecoder;

use crate::error::Error;
use crate::gzip::Gzip;

/// The word of a command line that stands for standard input.
pub const STANDARD_INPUT: &str = "-";

const CHUNK: usize = 1 << 18;
const LONGEST_MAGIC: usize = 6;
/// What xz may take: its own programs ask for 65 MiB at most, unless they are told to use more.
const MOST_XZ_MEMORY: u64 = 256 << 20;

/// The file, of which the first bytes were read already.
pub(crate) type Raw = Chain<Cursor<Vec<u8>>, Box<dyn Read + Send>>;

/// The bytes of a capture, of which some are in view before they are passed over.
pub struct Source {
    unpacked: Unpacked,
    window: Vec<u8>,
    start: usize,
    end: usize,
    /// How many bytes were read, unpacked.
    read: u64,
    is_cut: bool,
}

enum Unpacked {
    Plain(Raw),
    Gzip(Box<Gzip>),
    Zstd(Box<zstd::stream::read::Decoder<'static, BufReader<Raw>>>),
    Xz(Box<XzDecoder<Raw>>),
    Bzip2(Box<MultiBzDecoder<Raw>>),
}

impl Source {
    /// The file of this name, or standard input for `-`.
    pub fn open(path: &OsStr) -> Result<Source, Error> {
        Source::new(opened(path)?)
    }

    /// Opens a file, and tells how many of its bytes are read, as it has them.
    pub fn open_counted(path: &OsStr, count: fn(u64)) -> Result<Source, Error> {
        Source::new(Box::new(Counted { file: opened(path)?, count }))
    }

    /// The source of a file that is open, from its place on.
    pub fn of_file(file: File, count: fn(u64)) -> Result<Source, Error> {
        Source::new(Box::new(Counted { file: Box::new(file), count }))
    }

    /// Whatever gives bytes.
    pub fn new(mut file: Box<dyn Read + Send>) -> Result<Source, Error> {
        let mut magic = Vec::new();
        file.by_ref().take(LONGEST_MAGIC as u64).read_to_end(&mut magic)?;
        let unpacked = unpacked(&magic.clone(), Cursor::new(magic).chain(file))?;
        Ok(Source { unpacked, window: Vec::new(), start: 0, end: 0, read: 0, is_cut: false })
    }

    /// Whether a file can be read twice: a pipe, a device and standard input cannot.
    pub fn can_be_read_twice(path: &OsStr) -> io::Result<bool> {
        Source::size(path).map(|size| size.is_some())
    }

    /// How many bytes a file has, unless it is a pipe, a device or standard input.
    pub fn size(path: &OsStr) -> io::Result<Option<u64>> {
        if path == OsStr::new(STANDARD_INPUT) {
            return Ok(None);
        }
        fs::metadata(path).map(|found| Some(found.len()).filter(|_| found.is_file()))
    }

    /// Gives as many of the next bytes as are asked for, fewer at the end alone.
    #[inline]
    pub fn fill(&mut self, size: usize) -> Result<&[u8], Error> {
        while self.end - self.start < size && self.read_more()? {}
        Ok(self.view(size))
    }

    /// Gives as many of the next bytes as are asked for, of those that were filled in.
    #[inline]
    pub fn view(&self, size: usize) -> &[u8] {
        &self.window[self.start..self.end.min(self.start + size)]
    }

    /// Passes over bytes that are in view.
    #[inline]
    pub fn consume(&mut self, size: usize) {
        self.start = self.end.min(self.start + size);
    }

    /// Passes over bytes, and answers how many there were.
    pub fn skip(&mut self, size: u64) -> Result<u64, Error> {
        let mut left = size;
        while left > 0 {
            let part = self.fill(CHUNK.min(usize::try_from(left).unwrap_or(CHUNK)))?.len();
            if part == 0 {
                break;
            }
            self.consume(part);
            left -= part as u64;
        }
        Ok(size - left)
    }

    /// Where what is in view begins in the file, unless that is compressed.
    #[inline]
    pub fn place(&self) -> Option<u64> {
        matches!(self.unpacked, Unpacked::Plain(_)).then(|| self.read - (self.end - self.start) as u64)
    }

    /// Whether a compressed file ends too early, once its end is reached.
    pub fn is_cut(&self) -> bool {
        self.is_cut || matches!(&self.unpacked, Unpacked::Gzip(gzip) if gzip.is_cut())
    }

    /// Whether bytes that belong to no gzip member stood behind the last one, and were passed over.
    pub fn has_bytes_behind(&self) -> bool {
        matches!(&self.unpacked, Unpacked::Gzip(gzip) if gzip.has_bytes_behind())
    }

    fn read_more(&mut self) -> Result<bool, Error> {
        if self.start > 0 {
            self.window.copy_within(self.start..self.end, 0);
            self.end -= self.start;
            self.start = 0;
        }
        if self.window.is_empty() {
            self.window = vec![0; CHUNK]; // of the system's zeros, which take no memory until they are used
        } else if self.window.len() - self.end < CHUNK / 4 {
            self.window.resize(self.window.len() * 2, 0);
        }
        let got = self.unpacked.read(&mut self.window[self.end..], &mut self.is_cut)?;
        self.end += got;
        self.read += got as u64;
        Ok(got > 0)
    }
}

const IS_A_DIRECTORY: i32 = 21;

fn opened(path: &OsStr) -> Result<Box<dyn Read + Send>, Error> {
    if path == OsStr::new(STANDARD_INPUT) {
        return Ok(Box::new(io::stdin()));
    }
    let file = File::open(path)?;
    if file.metadata()?.is_dir() {
        return Err(Error::Io(io::Error::from_raw_os_error(IS_A_DIRECTORY)));
    }
    Ok(Box::new(file))
}

/// A file whose bytes are counted as they are read.
struct Counted {
    file: Box<dyn Read + Send>,
    count: fn(u64),
}

impl Read for Counted {
    fn read(&mut self, room: &mut [u8]) -> io::Result<usize> {
        let got = self.file.read(room)?;
        (self.count)(got as u64);
        Ok(got)
    }
}

fn unpacked(magic: &[u8], raw: Raw) -> Result<Unpacked, Error> {
    Ok(match magic {
        [0x1f, 0x8b, ..] => Unpacked::Gzip(Box::new(Gzip::new(raw))),
        [0x28, 0xb5, 0x2f, 0xfd, ..] => Unpacked::Zstd(Box::new(zstd::stream::read::Decoder::new(raw)?)),
        [0xfd, b'7', b'z', b'X', b'Z', 0] => {
            let stream = xz2::stream::Stream::new_stream_decoder(MOST_XZ_MEMORY, xz2::stream::CONCATENATED);
            Unpacked::Xz(Box::new(XzDecoder::new_stream(raw, stream.map_err(|_| Error::refused("bad-xz"))?)))
        }
        [b'B', b'Z', b'h', b'1'..=b'9', 0x31 | 0x17, _] => Unpacked::Bzip2(Box::new(MultiBzDecoder::new(raw))),
        [0x04, 0x22, 0x4d, 0x18, ..] | [0x02, 0x21, 0x4c, 0x18, ..] => return Err(Error::refused("lz4")),
        _ => Unpacked::Plain(raw),
    })
}

impl Unpacked {
    fn read(&mut self, room: &mut [u8], is_cut: &mut bool) -> Result<usize, Error> {
        loop {
            let (got, name) = match self {
                Unpacked::Gzip(gzip) => return gzip.read(room),
                Unpacked::Plain(raw) => (raw.read(room), ""),
                Unpacked::Zstd(zstd) => (zstd.read(room), "bad-zstd"),
                Unpacked::Xz(xz) => (xz.read(room), "bad-xz"),
                Unpacked::Bzip2(bzip2) => (bzip2.read(room), "bad-bzip2"),
            };
            match got {
                Err(error) if error.kind() == io::ErrorKind::Interrupted => continue,
                Err(error) if name.is_empty() || error.raw_os_error().is_some() => return Err(Error::Io(error)),
                Err(error) if error.kind() == io::ErrorKind::UnexpectedEof => {
                    *is_cut = true;
                    return Ok(0);
                }
                Err(_) => return Err(Error::refused(name)),
                Ok(got) => return Ok(got),
            }
        }
    }
}
