//! Command lines: what is wrong with a word is one line.

use std::ffi::OsStr;
use std::io::{self, Write};

use crate::failure::Failure;
use crate::messages::printable;

/// No number of a command line has more digits.
const MOST_DIGITS: usize = 20;

/// What is wrong with the words.
pub fn wrong(error: lexopt::Error) -> Failure {
    Failure::Usage(match error {
        lexopt::Error::MissingValue { option: Some(option) } => format!("argument {option}: expected one argument"),
        lexopt::Error::UnexpectedOption(option) => format!("unrecognized arguments: {}", printable(option)),
        lexopt::Error::UnexpectedArgument(word) => format!("unrecognized arguments: {}", printable(word)),
        lexopt::Error::UnexpectedValue { option, value } => {
            format!("argument {option}: ignored explicit argument '{}'", printable(value))
        }
        other => printable(other.to_string()),
    })
}

/// Words that are missing.
pub fn missing(names: &[&str]) -> Failure {
    Failure::Usage(format!("the following arguments are required: {}", names.join(", ")))
}

/// A word as a whole number in this range.
pub fn number(option: &str, word: &OsStr, least: u64, most: u64) -> Result<u64, Failure> {
    let digits =
        word.to_str().filter(|word| word.len() <= MOST_DIGITS && word.bytes().all(|byte| byte.is_ascii_digit()));
    let number = digits.and_then(|digits| digits.parse().ok()).filter(|number| (least..=most).contains(number));
    number.ok_or_else(|| {
        Failure::Usage(format!("argument {option}: '{}' is no number from {least} to {most}", printable(word)))
    })
}

/// Prints what was asked for instead of work, as the help or the version.
pub fn print(text: &str) -> Result<i32, Failure> {
    let mut output = io::stdout();
    let written = output.write_all(text.as_bytes()).and_then(|()| output.flush());
    written.map(|()| 0).map_err(|error| Failure::of_output(&error))
}
