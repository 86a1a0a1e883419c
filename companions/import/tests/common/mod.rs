//! Captures to import, and an import in memory.

#![allow(dead_code)] // not each test needs all of it

use std::ffi::{OsStr, OsString};
use std::fs;
use std::io::{self, Write};
use std::path::{Path, PathBuf};

use captures::{pcap, RAW};
use import::{imported, Bounds, Courses, ImportOptions, Listener, Record, Sink, Summary, Target};
use programs::Failure;

pub const INTERESTING: [&[u8]; 8] = [
    b"\x00",
    b"\xff",
    b"\x7f\xff",
    b"\x80\x00",
    b"\x16\x03\x03",
    b"\xff\xff\xff\xff",
    b"\x00\x00\x00\x00",
    b"PROXY TCP4 ",
];

pub fn top() -> PathBuf {
    Path::new(env!("CARGO_MANIFEST_DIR")).join("../..")
}

/// Captures, each with the place of its key log, where there may be one.
pub fn captures() -> Vec<(PathBuf, PathBuf)> {
    let mut found = Vec::new();
    for folder in ["tests/tls", "tests/corpus"] {
        let mut paths: Vec<_> = fs::read_dir(top().join(folder)).unwrap().map(|entry| entry.unwrap().path()).collect();
        paths.sort();
        for path in paths {
            let name = path.file_name().unwrap().to_str().unwrap();
            if let Some(end) = name.find(".pcap") {
                let keys = path.with_file_name(format!("{}.keys", &name[..end]));
                found.push((path, keys));
            }
        }
    }
    assert!(found.len() > 20);
    found
}

/// Captures of HTTP/2 in the clear.
pub fn in_the_clear() -> Vec<PathBuf> {
    let folders = ["examples", "tests/answer"].into_iter();
    let entries = folders.flat_map(|folder| fs::read_dir(top().join(folder)).unwrap());
    let paths = entries.map(|entry| entry.unwrap().path()).filter(|path| path.extension() == Some(OsStr::new("pcap")));
    let mut found: Vec<_> = paths.collect();
    found.sort();
    assert!(found.len() > 20);
    found
}

/// What is made, in memory.
#[derive(Default)]
pub struct Made(pub Vec<u8>);

impl Write for Made {
    fn write(&mut self, bytes: &[u8]) -> io::Result<usize> {
        self.0.write(bytes)
    }

    fn flush(&mut self) -> io::Result<()> {
        Ok(())
    }
}

impl Target for Made {
    fn begin_anew(&mut self) -> io::Result<()> {
        self.0.clear();
        Ok(())
    }

    fn failure(&self, error: &io::Error) -> Failure {
        Failure::Io(error.to_string())
    }
}

/// Hands each record to a function, and after `begin_anew` a new one.
pub struct Each<T, F: FnMut(&mut T, &Record<'_>)> {
    pub state: T,
    pub take: F,
}

impl<T: Default, F: FnMut(&mut T, &Record<'_>)> Listener for Each<T, F> {
    fn begin_file(&mut self, _path: &OsStr, _packets_before: u64) {}

    fn address(&mut self, _stand_in: [u8; 4], _original: [u8; 16]) {}

    fn record(&mut self, record: &Record<'_>) {
        (self.take)(&mut self.state, record);
    }

    fn passed(&mut self, _packet: u64, _why: &str) {}

    fn finish(&mut self, _summary: &Summary) {}

    fn begin_anew(&mut self) -> Result<(), Failure> {
        self.state = T::default();
        Ok(())
    }

    fn take_failure(&mut self) -> Option<Failure> {
        None
    }
}

/// Imports a file: what is made, the listener's state, and what there was.
pub fn import<T: Default>(
    path: &Path,
    keys: &Path,
    courses: Option<&mut Courses>,
    take: impl FnMut(&mut T, &Record<'_>),
) -> Result<(Vec<u8>, T, Summary), Failure> {
    import_in(&[path], keys, false, courses, take)
}

/// Imports several files, whose packets may be put in order of time.
pub fn import_in<T: Default>(
    paths: &[&Path],
    keys: &Path,
    is_reordered: bool,
    courses: Option<&mut Courses>,
    take: impl FnMut(&mut T, &Record<'_>),
) -> Result<(Vec<u8>, T, Summary), Failure> {
    let (mut made, mut listener) = (Made::default(), Each { state: T::default(), take });
    let files: Vec<OsString> = paths.iter().map(OsString::from).collect();
    let key_logs: Vec<OsString> = keys.exists().then(|| keys.into()).into_iter().collect();
    let mut sink = Sink::new(&mut made, &mut listener)?;
    let asked = ImportOptions {
        program: "import",
        files: &files,
        key_logs: &key_logs,
        is_reordered,
        is_joined: false,
        bounds: Bounds::default(),
        can_repeat: true,
    };
    let summary = imported(&asked, &mut sink, courses)?;
    drop(sink);
    Ok((made.0, listener.state, summary))
}

/// A packet of raw IP between two hosts, of which the client is at 0.
#[derive(Clone)]
pub struct Datagram {
    pub side: usize,
    pub sequence: u32,
    pub flags: u8,
    pub window: u16,
    pub identification: u16,
    pub payload: Vec<u8>,
}

impl Datagram {
    pub fn bytes(&self) -> Vec<u8> {
        let mut ends = [([10, 0, 0, 1], 40_000_u16), ([10, 0, 0, 2], 443)];
        if self.side == 1 {
            ends.reverse();
        }
        let mut bytes = vec![0x45, 0];
        bytes.extend_from_slice(&(40 + self.payload.len() as u16).to_be_bytes());
        bytes.extend_from_slice(&self.identification.to_be_bytes());
        bytes.extend_from_slice(&[0, 0, 64, 6, 0, 0]);
        ends.iter().for_each(|(address, _)| bytes.extend_from_slice(address));
        ends.iter().for_each(|(_, port)| bytes.extend_from_slice(&port.to_be_bytes()));
        bytes.extend_from_slice(&self.sequence.to_be_bytes());
        bytes.extend_from_slice(&[0, 0, 0, 0, 0x50, self.flags]);
        bytes.extend_from_slice(&self.window.to_be_bytes());
        bytes.extend_from_slice(&[0, 0, 0, 0]);
        bytes.extend_from_slice(&self.payload);
        bytes
    }
}

/// A capture of packets, each with its time in nanoseconds.
pub fn captured<'a>(packets: impl IntoIterator<Item = &'a (u64, Datagram)>) -> Vec<u8> {
    let mut writer = pcap::Writer::new(Vec::new(), RAW).unwrap();
    for (nanos, datagram) in packets {
        let bytes = datagram.bytes();
        writer.write(*nanos as i64, bytes.len() as u32, [&bytes, &[]]).unwrap();
    }
    writer.into_inner()
}
