//! What is known of the terminal.

use std::env;

use terminal_size::{terminal_size, Width};

/// Where a terminal does not tell its width.
const USUAL_WIDTH: usize = 80;

pub fn is_output() -> bool {
    atty::is(atty::Stream::Stdout)
}

/// Whether nobody asked for none (https://no-color.org).
pub fn wants_colours() -> bool {
    env::var_os("NO_COLOR").map_or(true, |word| word.is_empty())
}

/// Its columns, as the variable COLUMNS or the terminal itself tells them.
pub fn width() -> usize {
    let named = env::var("COLUMNS").ok().and_then(|word| word.parse().ok());
    let told = || terminal_size().map(|(Width(columns), _)| usize::from(columns));
    named.filter(|columns| *columns > 0).or_else(told).filter(|columns| *columns > 0).unwrap_or(USUAL_WIDTH)
}
