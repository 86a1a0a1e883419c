//! A program with an error of its own, in mid-file: tests/panics.rs says what becomes of it.

#![forbid(unsafe_code)]

use std::io::Write;
use std::path::Path;

use programs::{run, Failure, Output};

fn main() {
    run("panics", |words| {
        let name = words.first().ok_or_else(|| Failure::Usage("no name".into()))?;
        let mut output = Output::begin(Path::new(name))?;
        output.write_all(b"a secret").map_err(|error| output.failure(&error))?;
        let bytes = name.to_string_lossy().into_owned().into_bytes();
        Ok(i32::from(bytes[bytes.len()]))
    })
}
