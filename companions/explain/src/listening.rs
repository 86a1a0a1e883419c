//! Who listens to the import: the first walk, and where the report of the original is wanted what is kept for it.

use std::ffi::OsStr;

use import::{Listener, Record, Summary};
use originals::Keeping;
use programs::Failure;

use crate::learning::Learning;

pub struct Listening {
    pub learning: Learning,
    pub keeping: Option<Keeping>,
}

impl Listener for Listening {
    fn begin_file(&mut self, path: &OsStr, packets_before: u64) {
        self.learning.begin_file(path, packets_before);
        self.keeping.iter_mut().for_each(|keeping| keeping.begin_file(path, packets_before));
    }

    fn address(&mut self, stand_in: [u8; 4], original: [u8; 16]) {
        self.learning.address(stand_in, original);
        self.keeping.iter_mut().for_each(|keeping| keeping.address(stand_in, original));
    }

    fn record(&mut self, record: &Record<'_>) {
        self.learning.record(record);
        self.keeping.iter_mut().for_each(|keeping| keeping.record(record));
    }

    fn passed(&mut self, packet: u64, why: &str) {
        self.learning.passed(packet, why);
        self.keeping.iter_mut().for_each(|keeping| keeping.passed(packet, why));
    }

    fn finish(&mut self, summary: &Summary) {
        self.learning.finish(summary);
        self.keeping.iter_mut().for_each(|keeping| keeping.finish(summary));
    }

    fn begin_anew(&mut self) -> Result<(), Failure> {
        self.keeping.iter_mut().try_for_each(Keeping::begin_anew)?;
        self.learning.begin_anew()
    }

    fn take_failure(&mut self) -> Option<Failure> {
        let kept = self.keeping.as_mut().and_then(Keeping::take_failure);
        self.learning.take_failure().or(kept)
    }
}
