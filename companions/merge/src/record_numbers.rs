//! The numbers that the records of a part have in the whole, as h2audit-split wrote them down.

use std::fs::File;
use std::os::unix::fs::FileExt;
use std::path::{Path, PathBuf};

use programs::{printable, Failure};

use crate::split_folder::failed;

const NUMBER: usize = 8;
/// So many numbers are read at a time.
const BLOCK: u64 = 2_048;

/// Looks numbers up where they lie in the file, and keeps one block of it.
pub struct RecordNumbers {
    path: PathBuf,
    file: File,
    /// How many records the part has.
    pub count: u64,
    first: u64,
    block: Vec<u64>,
}

impl RecordNumbers {
    pub fn open(path: &Path) -> Result<RecordNumbers, Failure> {
        let open = || {
            let file = File::open(path)?;
            let size = file.metadata()?.len();
            Ok((file, size))
        };
        let (file, size) = open().map_err(|error| failed(path, &error))?;
        if size % NUMBER as u64 != 0 {
            return Err(Failure::Refused(format!("{} is no list of record numbers", printable(path))));
        }
        Ok(RecordNumbers { path: path.to_path_buf(), file, count: size / NUMBER as u64, first: 0, block: Vec::new() })
    }

    /// The number in the whole of a record of the part; both count from 1.
    pub fn whole(&mut self, record: u64) -> Result<u64, Failure> {
        let index = record.wrapping_sub(1);
        if index >= self.count {
            return Err(self.has_none(record));
        }
        if index < self.first || index - self.first >= self.block.len() as u64 {
            self.read(index)?;
        }
        let number = self.block.get((index - self.first) as usize).copied();
        number.ok_or_else(|| self.has_none(record))
    }

    /// Reads the block with this index.
    fn read(&mut self, index: u64) -> Result<(), Failure> {
        self.first = index - index % BLOCK;
        let most = BLOCK.min(self.count - self.first) as usize;
        let mut bytes = vec![0; most * NUMBER];
        self.file.read_exact_at(&mut bytes, self.first * NUMBER as u64).map_err(|error| failed(&self.path, &error))?;
        self.block.clear();
        self.block.extend(
            bytes.chunks_exact(NUMBER).map(|number| number.iter().fold(0, |sum, byte| sum << 8 | u64::from(*byte))),
        );
        Ok(())
    }

    fn has_none(&self, record: u64) -> Failure {
        Failure::Refused(format!("{} has no record {record}", printable(&self.path)))
    }
}
