//! h2audit-import.

#![forbid(unsafe_code)]

use import::command::{main as import, NAME};

fn main() {
    programs::run(NAME, import)
}
